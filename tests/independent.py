"""The 003 string and the keys of a password by another implementation: Python's standard library, and AES from
`cryptography` or, where that isn't installed, from the command `openssl`. Nothing here calls the program under test.
"""

import base64
import hashlib
import hmac
import json
import re
import shutil
import subprocess

try:
    from cryptography.hazmat.primitives.ciphers import Cipher, algorithms, modes
except ImportError:
    Cipher = None

OPENSSL = shutil.which("openssl")
UUID = re.compile(r"[0-9a-f]{8}-[0-9a-f]{4}-[0-9a-f]{4}-[0-9a-f]{4}-[0-9a-f]{12}")


def missing():
    """Why the independent implementation can't run here, or None."""
    if Cipher is None and OPENSSL is None:
        return "neither Python's `cryptography` nor the command `openssl` is installed"
    return None


def aes_cbc(key, iv, data, decrypt):
    """AES-256-CBC of whole blocks (NIST SP 800-38A, 6.2)."""
    if Cipher is not None:
        cipher = Cipher(algorithms.AES(key), modes.CBC(iv))
        worker = cipher.decryptor() if decrypt else cipher.encryptor()
        return worker.update(data) + worker.finalize()
    words = [OPENSSL, "enc", "-aes-256-cbc", "-nopad", "-K", key.hex(), "-iv", iv.hex()]
    words.append("-d" if decrypt else "-e")
    return subprocess.run(words, input=data, stdout=subprocess.PIPE, check=True).stdout


def pad(data):
    """RFC 5652, 6.3, for blocks of 16 bytes."""
    count = 16 - len(data) % 16
    return data + bytes([count]) * count


def unpad(data):
    count = data[-1]
    if not 1 <= count <= 16 or data[-count:] != bytes([count]) * count:
        raise ValueError("padding")
    return data[:-count]


def params_part(identifier, cost, nonce):
    members = {"identifier": identifier, "pw_cost": cost, "pw_nonce": nonce, "version": "003"}
    text = json.dumps(members, separators=(",", ":"), ensure_ascii=False, sort_keys=True)
    return base64.b64encode(text.encode()).decode()


def mac(key, uuid, iv, ciphertext):
    text = "003:%s:%s:%s" % (uuid, iv, ciphertext)
    return hmac.new(key, text.encode(), hashlib.sha256).hexdigest()


def seal(plain, uuid, key, identifier, cost, nonce, iv):
    """The 003 string of `plain` under the 64 bytes `key`, with the given IV."""
    data = aes_cbc(key[:32], iv, pad(plain), decrypt=False)
    return join(plain_parts(data, uuid, key, identifier, cost, nonce, iv))


def plain_parts(data, uuid, key, identifier, cost, nonce, iv):
    ciphertext = base64.b64encode(data).decode()
    digest = mac(key[32:], uuid, iv.hex(), ciphertext)
    return ["003", digest, uuid, iv.hex(), ciphertext, params_part(identifier, cost, nonce)]


def join(parts):
    return ":".join(parts)


def open_string(text, uuid, key):
    """The plain bytes of a 003 string, and its parameters."""
    version, digest, written, iv, ciphertext, params = text.split(":")
    assert version == "003"
    assert re.fullmatch("[0-9a-f]{64}", digest) and re.fullmatch("[0-9a-f]{32}", iv)
    assert UUID.fullmatch(written) and written == uuid
    assert mac(key[32:], written, iv, ciphertext) == digest
    data = base64.b64decode(ciphertext, validate=True)
    plain = unpad(aes_cbc(key[:32], bytes.fromhex(iv), data, decrypt=True))
    return plain, json.loads(base64.b64decode(params, validate=True))


def salt(identifier, cost, nonce):
    """The lower-case hex digits of the SHA-256 of `identifier:SF:003:pw_cost:pw_nonce`."""
    text = b":".join([identifier, b"SF", b"003", str(cost).encode(), nonce])
    return hashlib.sha256(text).hexdigest().encode()


def keys(password, identifier, cost, nonce):
    """The server's password, the master key and the authentication key: 96 bytes of PBKDF2 (RFC 8018) in three."""
    derived = hashlib.pbkdf2_hmac("sha512", password, salt(identifier, cost, nonce), cost, 96)
    return derived[:32], derived[32:64], derived[64:]


def check_value(pw):
    """What a server keeps: the SHA-256 of the lower-case hex digits of its password."""
    return hashlib.sha256(pw.hex().encode()).digest()
