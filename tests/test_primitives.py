"""Published vectors and values of independent implementations, beside what the proved ciphers, HMACs and keys give.

No command shows these, so the proved functions are called in `crates/sn_bench` as a shared library. `tests/run` builds it
and names it in SN_LIBRARY. The blocks are FIPS 197's (C.3), SP 800-38A's (F.1.5) and random ones that an independent AES
gives; the texts SP 800-38A's (F.2.5, which gives the first 64 bytes of its case) and others of an independent AES; the HMACs
those of RFC 4231, and of Python's `hmac` for random keys and texts; the derived keys are `hashlib.pbkdf2_hmac`'s, of which
the first 64 bytes of the four of `password` and `passwordPASSWORDpassword` are published for PBKDF2-HMAC-SHA-512; the last
table is of `hashlib` too.
"""

import ctypes
import os
import unittest

import test_keys
from test_keys import given

LIBRARY = os.environ.get("SN_LIBRARY")
BLOCK = 16
PADDING = bytes([BLOCK]) * BLOCK
ZEROS = bytes(BLOCK)

# A name, a key, a block of text and its block of ciphertext.
BLOCKS = (
    (
        "FIPS 197, C.3",
        "000102030405060708090a0b0c0d0e0f101112131415161718191a1b1c1d1e1f",
        "00112233445566778899aabbccddeeff",
        "8ea2b7ca516745bfeafc49904b496089",
    ),
    (
        "SP 800-38A, F.1.5, block 1",
        "603deb1015ca71be2b73aef0857d77811f352c073b6108d72d9810a30914dff4",
        "6bc1bee22e409f96e93d7e117393172a",
        "f3eed1bdb5d2a03c064b5a7e3db181f8",
    ),
    (
        "SP 800-38A, F.1.5, block 2",
        "603deb1015ca71be2b73aef0857d77811f352c073b6108d72d9810a30914dff4",
        "ae2d8a571e03ac9c9eb76fac45af8e51",
        "591ccb10d410ed26dc5ba74a31362870",
    ),
    (
        "SP 800-38A, F.1.5, block 3",
        "603deb1015ca71be2b73aef0857d77811f352c073b6108d72d9810a30914dff4",
        "30c81c46a35ce411e5fbc1191a0a52ef",
        "b6ed21b99ca6f4f9f153e7b1beafed1d",
    ),
    (
        "SP 800-38A, F.1.5, block 4",
        "603deb1015ca71be2b73aef0857d77811f352c073b6108d72d9810a30914dff4",
        "f69f2445df4f9b17ad2b417be66c3710",
        "23304b7a39f9f3ff067d8d8f9e24ecc7",
    ),
    (
        "random 1",
        "f3e3102995a6739635d0b07e41cfc9bcbe68fc267936b4cb83bb8512d5970e5a",
        "eaad5c44456cafedadcee7dc2fdf00fd",
        "5a46b5a8162f2f8ec1b257762128630f",
    ),
    (
        "random 2",
        "4514662ad78eff3bf3dba5cb348896815aaa81556cb06c6dc5930ce74ee4b7dd",
        "dc8c3404cb15a546ca49e6712e34458a",
        "db22530026b287ffa0f4b7e5d49e9ece",
    ),
    (
        "random 3",
        "131c13eb071f42855d645022fce186a3891d0eb49f09e0b091258131b4c9f151",
        "34a529f7600700990de952d6267ef15e",
        "4db5795c10f11a50811ac643f2f906b6",
    ),
    (
        "random 4",
        "eb997d4199c5ed8f63b1547c9a93526d90e0da4ea17ad27f7115aca9eda955cb",
        "521b29df1500f5573be92098ecd7df51",
        "17a7d9208bbe10804db590398f395c0a",
    ),
)

# A name, a key, an initialization vector, a plain text and its ciphertext.
TEXTS = (
    (
        "SP 800-38A, F.2.5",
        "603deb1015ca71be2b73aef0857d77811f352c073b6108d72d9810a30914dff4",
        "000102030405060708090a0b0c0d0e0f",
        "6bc1bee22e409f96e93d7e117393172aae2d8a571e03ac9c9eb76fac45af8e5130c81c46a35ce411e5fbc1191a0a52ef"
        "f69f2445df4f9b17ad2b417be66c3710",
        "f58c4c04d6e5f1ba779eabfb5f7bfbd69cfc4e967edb808d679f777bc6702c7d39f23369a9d9bacfa530e26304231461"
        "b2eb05e2c39be9fcda6c19078c6a9d1b3f461796d6b0d6b2e0c2a72b4d80e644",
    ),
    (
        "length 0",
        "a7f55d2c865da1a1a47400e2850f0311d21efe99af47b7e8073a5a862dd8d94d",
        "2cd09965c630e15fc3a7dbad7a82f6b5",
        "",
        "9fec63bad1ea8290dc4fd08a958bd205",
    ),
    (
        "length 1",
        "0e6f21e23e583e8d22dc7995de1b0422e10a356928e6935b1330bd71d72d8bfb",
        "bdb2c6c277e88010fb95a0c5aef45541",
        "0f",
        "c9a795b456af78f3e59fc1abe3694055",
    ),
    (
        "length 15",
        "116c61cea3004bb16beb4e8e3fdc8a75c6253e2287c48ea65fb9dfcb40efcbbb",
        "bc6f1bf63d11a97ca89c36ba3e524fa4",
        "612b86183f37a35c5b5488ae9500ed",
        "c9b22d96892b28c9aace05caf532cda4",
    ),
    (
        "length 16",
        "81e4b030e41a7c5775d042df521686e1c2013b8c84d202c3132c11e9b2206e30",
        "c3d22b002e34ea02b1d17d7ecc3e6324",
        "61d4f1a640c7024f8fa3bcf936573409",
        "401c9f58f125925a02ec5bd0792c0341ca03f3628ecea7dc893e6665fe5c98b3",
    ),
    (
        "length 17",
        "cf07c4f8062b4c4992879a3530148afa8e69fd8f890af4f6c8fc25dc2d06c57b",
        "29248f876702e7db9bde31ff1a4fb4e0",
        "8c90c0068a386ca8b49459f66210a905a8",
        "a2f2e0595e257fbf7f65b65d2617d3b13965378cd4a140c0a81564522718ff3f",
    ),
    (
        "length 31",
        "557e6f0ba21bbbc470caa4a0cce953baea2981025e6ed3d5785f41b1d340d681",
        "0042fb1bb5a873b86b0eb1e1546a7962",
        "0c06cdb40e2f67b2e0b31f3a22167966a76878b5351eb138ed14c2fc441f12",
        "8051c1a882695c791225a969b78419315486f0e0f1faed7c3a1d5612d16eb96f",
    ),
    (
        "length 32",
        "8d142926d3086697cbf0c75e0dfd303a6fc7c5a8d45be663c4c08b411735e201",
        "5d8a4cbfef4749408b6fd0cda4df8c3e",
        "686af9308ccdbba73f79f5a9df4f27cbe9849c8bc2a5fc56b6b9cbb60555be62",
        "344d4f0aaa02cad39b66e603d4080088cd633f1f4355e75ea0a81e417139bec3cd68f2d9ea5a9c1e74515f86f20f7583",
    ),
    (
        "length 33",
        "b76ec9ecca2ee24ad307e152c8d8d4bd955acb1ded0286629384d29b889fff6b",
        "0548eafd1a41aaa09d0010cb961ed777",
        "3a458450cad9ccf674aa2bad403f7754a1f6e7cc3c51e871e6430c835733a6ce89",
        "4ab1b1898b248aef4324694ba327b37d06726be7c282e14a93b8fa7962b24e91da798feb669f8a8449b1ec45013ac814",
    ),
)

# A name, a key, a text and their HMAC-SHA-256.
MACS = (
    (
        "RFC 4231, test case 1",
        bytes([0x0B]) * 20,
        b"Hi There",
        "b0344c61d8db38535ca8afceaf0bf12b881dc200c9833da726e9376c2e32cff7",
    ),
    (
        "RFC 4231, test case 2",
        b"Jefe",
        b"what do ya want for nothing?",
        "5bdcc146bf60754e6a042426089575c75a003f089d2739839dec58b964ec3843",
    ),
    (
        "RFC 4231, test case 3",
        bytes([0xAA]) * 20,
        bytes([0xDD]) * 50,
        "773ea91e36800e46854db8ebd09181a72959098b3ef8c122d9635514ced565fe",
    ),
    (
        "RFC 4231, test case 4",
        bytes.fromhex("0102030405060708090a0b0c0d0e0f10111213141516171819"),
        bytes([0xCD]) * 50,
        "82558a389a443c0ea4cc819899f2083a85f0faa3e578f8077a2e3ff46729665b",
    ),
    (
        "RFC 4231, test case 6",
        bytes([0xAA]) * 131,
        b"Test Using Larger Than Block-Size Key - Hash Key First",
        "60e431591ee0b67f0d8a26aacbf5b77f8e0bc6213728c5140546040f0ee37f54",
    ),
    (
        "RFC 4231, test case 7",
        bytes([0xAA]) * 131,
        b"This is a test using a larger than block-size key and a larger than block-size data. The "
        b"key needs to be hashed before being used by the HMAC algorithm.",
        "9b09ffa71b942fcb27635fbcd5b0e944bfdc63644f0713938a7f51535c3a35e2",
    ),
    (
        "empty key, empty text",
        b"",
        b"",
        "b613679a0814d9ec772f95d778c35fc5ff1697c493715653c6c712144292c5ad",
    ),
    (
        "key of 64 bytes, text of 64",
        bytes.fromhex(
            "039d6ab0b0363dd79ce82f5efbbd7b6165e159e1c6c907833fe85e2e7d7b88e8a354cccda5378b88698d428ceda9cb8c"
            "4bfcc1284c93edf1a2ebb4a3e4cf42ca"
        ),
        bytes.fromhex(
            "6aaf4661cebf40f885dd70466733c16cf13d7212d9706c8d1bfd9f82d668a6eb8a92ec587984e7877dc5541a96dc8120"
            "0356ea6245719087fa704108f6eed71f"
        ),
        "031fe877982c38d87c47b2a914d16fbb2031b484762d9f30478f9173aa5e79b8",
    ),
    (
        "key of 65 bytes, text of 129",
        bytes.fromhex(
            "a12077cf22608790ca4b07c4f8445ac209bbb8e9c3802dc17d39cccda3b034ba243c5c91a0b7f347599b13ffed7d50d1"
            "8245751ed3c1ff5814623e796535b733bf"
        ),
        bytes.fromhex(
            "9a50623a8a7b3432acb8fa14c4e0b7468ae8a357bbdf085242d2e00570dc5bc83636f67d84fad581a5d4875357c84709"
            "af551f627d490ebb5c8d7967ee3a938a76b30ef904c46e1678c25d12b8dd037ec70a1c56dca0e6180f11b5bf6965b2b7"
            "3e201a8dc42b00191b1da34f0f9cabafe65c7843ce505df7a11b6d21cdffc186d0"
        ),
        "0dfbf0913e0651bce6e75c70653d90a9183b702a7bcb19685a678c92f5e003cb",
    ),
    (
        "key of 128 bytes, text of 111",
        bytes.fromhex(
            "5b2605fd27054c91367bf599eb1af96c28f3dbbbe2392192cffadee400fd37d1c642e91146f66c827ad2550ff993ff5d"
            "f9f43550312811f470bdf67403d2a924a2a41508e1e0a9ea7863fe785fb02c123bd14c1110f288c942fc8896c928526d"
            "2df7e804866dda583ae3865be50e383b788121837df90b9acd7168105d8b3b27"
        ),
        bytes.fromhex(
            "35b2a319823425b35cd66a210eb122dc2e46b5db1763fa1881cdf654b9bcab6bd09f29928c0c8de8e81ba6a0c87c0c4e"
            "c4e2f7608d025a11e2f62e1bc7bece17e838072f2bf5067e7c3c128f18dfe84c80858e0f78e15a6f1117efa5ee3149e6"
            "bb2f346a04d01657dc53f84645e8a5"
        ),
        "b57193e1f8a88d994915fa523cf0ccd720a12e97405fbbc14f38436239e3ada1",
    ),
    (
        "key of 129 bytes, text of 128",
        bytes.fromhex(
            "2ba3c068ae03a3653ccc5e2bc52b2a8f7a7a2ca5be14153968526aaa667b98ab3edb03c62ad44e11fff9a7a504602336"
            "30b2d5f8dbb0825aec462227c18ee3619b7966ad9f85bd78a28277766809ffeff1e58b833ce2612d34495f2c6b59098e"
            "c2d29f3addbb0beece7d2b42afac2a0631c680d924fbb24f4f15c3a424263501b7"
        ),
        bytes.fromhex(
            "d05c0a36f138663e0e2f773bfb5b58df53eaf051069f2756139c0e8211d9c3a92fa9744b90b10fd8bff23b59ffd7b76b"
            "5bfd5e02fb1c57f9e5bc4bd51e032e6523717df753aa2031515a97cfecba478faa87fe16743b1b05c4573259385a4f04"
            "664548238dc15cd9c6fe3c54cb37f7be2824500ec0f6da55cc2fedd832ae9715"
        ),
        "afe836ab95e2fd673deeb508def82dce9079eae04834ab27f079825bfbf24f14",
    ),
    (
        "key of 200 bytes, text of 300",
        bytes.fromhex(
            "d77b058b0b4e43f2eddc27d0ae3d660083cd38fcdbba24ff7867b6fc6225b015fd136e2b814c2817f0d2f5338823c860"
            "d52875da9fcd01dc0d36e89b7c235fd32e9e7c91c327ebfce494b833c9925c160498852893421c7c91501f32a8f4a198"
            "64d85ace3f37c9071890f0a436788f92c3905f5872acd071f481aa542a9b5a2d6eddfa2af57abae9e51f32dcdddde89a"
            "c7380b56b7a70361f3b9ea9efa451beafc620cb9ac31fef88ae7e69f9e4a4b7eb57da9b13414fc852e82822b5de63335"
            "29fc1ce2a4bb7350"
        ),
        bytes.fromhex(
            "075785eefb71f31c9f2218599b801fb795f3f31347ad8726b7d2adecbf72274a3514a1ae58a75dedb29895e1b9adc636"
            "2c9d8f190461693fb7299f5bc754f35877fe1214c9c60149f05c4745b5b136262981c1a19644f143a17648d751eceafa"
            "01783d96d4b0c73c432570f1f28af73741e8207384b0c6e958625ac5c7fe6f3f668783dcf342a175504f0d47c0d4cea5"
            "a4ebe0921071f64609b6f5e77601649dd3b39dc81edd050f82e34d32633e1ca3e815acc3dd9b752c0a5e805adf88c5eb"
            "120ae2e9625b085b98c791ead43fc4cd20bc728b854b68492da1e048bc6cf091dfaef2987195fea999d4aa9e1a019546"
            "3fcfdbcff08995576c766e849aedf5dbe8b482dd6d99ccbfcf6a047f6210b98fcb22a9db3a3d127be479a525d86ecf59"
            "b23beedf13e5b61cf20fdd53"
        ),
        "0866d122d983d5781518420ba1260b997afae8076a3c01dfb6a9e5d204bb0576",
    ),
)

# A password, a salt, a cost and the key of 96 bytes.
DERIVED = (
    (
        b"password",
        b"salt",
        1,
        "867f70cf1ade02cff3752599a3a53dc4af34c7a669815ae5d513554e1c8cf252c02d470a285a0501bad999bfe943c08f"
        "050235d7d68b1da55e63f73b60a57fce7b532e206c2967d4c7d2ffa460539fc4d4e5eec70125d74c6c7cf86d25284f29",
    ),
    (
        b"password",
        b"salt",
        2,
        "e1d9c16aa681708a45f5c7c4e215ceb66e011a2e9f0040713f18aefdb866d53cf76cab2868a39b9f7840edce4fef5a82"
        "be67335c77a6068e04112754f27ccf4e473e311ad827b68945f4e2dddb204c78e40e2495141e411cd272d020640d673c",
    ),
    (
        b"password",
        b"salt",
        4096,
        "d197b1b33db0143e018b12f3d1d1479e6cdebdcc97c5c0f87f6902e072f457b5143f30602641b3d55cd335988cb36b84"
        "376060ecd532e039b742a239434af2d5d6883f0be4c24d363b638f4c2f8d917533cd4158937d0b490697a64adadb07f1",
    ),
    (
        b"passwordPASSWORDpassword",
        b"saltSALTsaltSALTsaltSALTsaltSALTsalt",
        4096,
        "8c0511f4c6e597c6ac6315d8f0362e225f3c501495ba23b868c005174dc4ee71115b59f9e60cd9532fa33e0f75aefe30"
        "225c583a186cd82bd4daea9724a3d3b804f75bdd41494fa324cab24bcc680fb3b96a30cf5d21fac3c2875913919f3399",
    ),
    (
        b"",
        b"",
        7,
        "2525a297cff2207aeffa6519a19150751fae92a896b0433e3e382632e335dd33dfb442dcebeeb02931a6e8314e4d50e8"
        "aaccb5a6f5571ff107ec693c874a8f89dff244bcba2fa0aa69970b2301e4de6733b6235981f62d947d215b339bd2a04a",
    ),
    (
        b"9",
        bytes.fromhex("58b6422ab0561d6b93e3dd8bf81878e47b2040a7cc8358e109ac05d140da5c24"),
        100,
        "0b97ca2b07e39f12652a0e78430b2ce401cbe5f7a958221e1fa10f8916aad611f0f3d723dfce9da653b613922142d1d0"
        "26a4f5ca7ee2f6266a366322df4dab799c45606b069f136edd0953d5cac32efda739104f44aa21a06a08b3c4e241f090",
    ),
    (
        bytes.fromhex(
            "f4bb01c5c4a0351eb63efbd9ad716ec61b88a1d5af6d59413a09a68164d8bac2d303d471e51ab02fdb60e1c6369c57e6"
            "f4c6f00bdd8a7ce85ee0c529ab10e0655e02a3dd72a6cb30ba629d256e3ccdfeef86bcc8f118ed986b0abfd0fa002c5c"
            "45785239adfb995e23347adc4a49c9a3fceae1d0b67600bee89cc6c744554b4a25"
        ),
        bytes.fromhex("c8"),
        100,
        "2064240e3f77d640a8dd16dd0c403c3933eb3f58dba567be7df83579cf9e5c6a8091d8c296ddc80113ba81d6f6bf0f96"
        "1580e847ad4188058cc85e9a0bdd88dad3ece514c98ba390dfef88c6ea6034e6ea730c689d47115ce229a695762de739",
    ),
    (
        bytes.fromhex(
            "fe5f691fe8989a7fcd7750c675bfbcad8c371af6a010fdc31f7111ff899de2ec915a65909736d249dbebd24ec3b4886d"
            "b44d14b07d3afdcfc07d5f16474a2ecfc8b7e0bff6bcec5344cbf1d0cbcbbb0b6541e2d2e154142853440cf6271b8a6d"
            "23272ea3ac8c6d37dbcc8cc5b9e29519f4ddfb36010c77255cb0001e0071493185a5558fddbc0e573c1eddf093fbb1e4"
            "48c3fba701de88a7961b9dcf1be41368eba367868e33c60aff99998c9189dc4f6bc063e3bfd14c5de62f156ba3c9d27a"
            "f10f3b1c8e882b1f"
        ),
        bytes.fromhex("bd"),
        7,
        "0b444fee228f547520121b7b87373eb2cdffd1dc8dda23c40b85832efecc1958b7e1c3ee6430aeae5869cd6e82f6d654"
        "168cb8d962824d9633839f7a43d99918bc534b0083ef73c309a45cbb937979b606d3add689aa671cb908c932f607310c",
    ),
)

# A password, the identifier, the cost and the nonce of parameters, their salt, the three keys and the check value.
KEYS = (
    (
        "correct horse battery staple",
        "alice",
        1,
        "6e",
        "712096dc5c89c3f7e14741ca7094a439ef43b8bb0b710e0a62097f1292180d28",
        "67abe9818da48f79856406dd488bdb2591fcf74e9a0385b5da7cd700b54a645f",
        "2d6d975f1480445fc7e29d881b5a1e3c0899e38b1e7f3a650a4159a40f186517",
        "9d92ce7534e43899c79494036782d8f8334c95a38a7a07f8d7d1ff51d5eb56a1",
        "60f4ec98510a045111b68fa8a10cc5065ecdef331b6b38311784ba8827430eb4",
    ),
    (
        "correct horse battery staple",
        "a",
        3,
        "6e",
        "3ed5c351bfe48cdc2af741f8a4e8c937f64e44375ae52658dc35c161378b2c3f",
        "7d7ed67491b4627808542bfa6a56ef416fc58bdec7ecf81b927bef698375bdc5",
        "eb573858a6cfa07b05e0ce2973b08b2c77d545aaef5bfb81f0fb9587a01a3eea",
        "e59b042302c725e0b912ce49c310f17a70df4756ef48460696824da6905bbc9d",
        "48645e2eab0bb3b10f852f3d8174c36e6636354d2a031b598dd38938297721aa",
    ),
    (
        "пароль",
        "ü@x.de",
        1,
        "ñ",
        "21a0e399d9d7cc5618d62d341778c97423b502bef6d4b0c6074e52ae61e6bd15",
        "f1bc0014e3ee902a44e8aca7dacfd60df31231e68748558c5ed1d3b2f61a3b2e",
        "278667d084c22f3d1efaaa92f3b46f646b68dd36d4786837eb7de23f516bb62e",
        "299d7f9ca995c5686465a047c375b10a4e23437d0d3b3574bb302b3c94ee15f6",
        "a7cfeb85aaff7e6561add918405074f730b68758efb4f7b5fe920bfc916a043c",
    ),
    (
        "пароль",
        "quote\"back\\slash",
        2,
        "ñ",
        "741a4888356c6796ced9691a25ca2b499a2f964cf8d18cc13625ef28be575fe1",
        "9979726eaad11a1299f89a0d50cd1fdf02d6d7063358f0d96ce1434f0207b3ff",
        "21f5b0114d5599bbdec29de790b24d3eb1c316cb9b406aacc2d73cecd3feaefd",
        "b35167575645fdee49d1406b72236defeb883112cd4af63130cf369939ae5084",
        "031409be27a3b20d3f731f7b4f4cd094043842c825370bb09c29ef9fa17dd7e5",
    ),
    (
        " ",
        "日本",
        3,
        "6e",
        "1b7229f42b5787c1212bcd5d53284966815ce926842b705944be4cf7442128aa",
        "0ca3d533935c9413ff076168e0e05cc969063eedb6d60d4671b8062e8a55a930",
        "cb656f1303c6f9300892f7a588cd1e4ebefa8a1d074ecea61aaf9da8974b0484",
        "69314ebc0c867b8310fb4d6eaa42a91504553a5fcc86481373577896ee51aeae",
        "6aac402e3f2254625b560674704491888f2fa109fc9c4334c587ea383f1b4869",
    ),
    (
        "correct horse battery staple",
        "quote\"back\\slash",
        10,
        "f21bc971267fd5407fa274ef05de2d303ba7aefe461fc92fd9b66689f511d6f9",
        "74c06be86095ac101bc41194499d017882519f21ff30a593c0a95c0ae4acca36",
        "1a90e91f408741e778a4692034a7502e4f47f5901d86fba2bf67de1cdd4fff3c",
        "0c34dab28ba921e89678d781fd1d6148f2f266c86e1f0842f0e5ef8c69a3f127",
        "2b2c71da2da3501324bba7ac552c3a59abd10233b169306187a28723aaac9d3f",
        "bed443744c319a4b1abc7fe3591ed493dfdc2dd42b7a411fbf849bd127b30dbd",
    ),
)

# Bytes that are no positive number of whole blocks, as counts, and blocks of text that don't end in padding.
NO_WHOLE_BLOCKS = (0, 1, 15, 17, 33)
NO_PADDING = (
    bytes(16),
    bytes([17]) * 16,
    bytes([2] * 14 + [3, 2]),
    bytes([15] + [16] * 15),
)


def xor(one, other):
    return bytes(a ^ b for a, b in zip(one, other))


class Proved(test_keys.Proved):
    """The functions of the library. Each answers None where the library answers false."""

    def __init__(self, path):
        super().__init__(path)
        for name in ("sn_bench_seal", "sn_bench_unseal"):
            getattr(self.library, name).restype = ctypes.c_bool
        for name in ("sn_bench_hmac", "sn_bench_macs", "sn_bench_copied_macs", "sn_bench_derive96"):
            getattr(self.library, name).restype = None

    def sealed(self, key, iv, plain):
        """The last block of the ciphertext."""
        end = ctypes.create_string_buffer(BLOCK)
        return end.raw if self.library.sn_bench_seal(key, iv, *given(plain), end) else None

    def opened(self, key, iv, data):
        """The last block of the plain text, or zeros where it has no 16 bytes."""
        end = ctypes.create_string_buffer(BLOCK)
        return end.raw if self.library.sn_bench_unseal(key, iv, *given(data), end) else None

    def encrypted(self, key, block):
        """A block of ciphertext, as the whole ciphertext of no text: its one block is of padding, xored with the vector."""
        return self.sealed(key, xor(block, PADDING), b"")

    def decrypted(self, key, block):
        """A block of text, as the first of two of which the second is padding alone."""
        return self.opened(key, ZEROS, block + self.encrypted(key, xor(block, PADDING)))

    def hmac(self, key, text):
        digest = ctypes.create_string_buffer(32)
        self.library.sn_bench_hmac(*given(key), *given(text), digest)
        return digest.raw

    def macs(self, key, text):
        """The HMAC of a text of 64 bytes by the two functions that give one each."""
        for function in (self.library.sn_bench_macs, self.library.sn_bench_copied_macs):
            digest = ctypes.create_string_buffer(32)
            function(*given(key), *given(text), digest, ctypes.c_size_t(32))
            yield digest.raw

    def derived(self, password, salt, cost):
        key = ctypes.create_string_buffer(96)
        self.library.sn_bench_derive96(*given(password), *given(salt), ctypes.c_uint32(cost), key)
        return key.raw


def bytes_of(row):
    """A row of a table with its digits read: its name, and bytes."""
    name, *digits = row
    return [name, *map(bytes.fromhex, digits)]


@unittest.skipUnless(LIBRARY, "the proved functions are no shared library, as tests/run makes one where `cc` is installed")
class Primitives(unittest.TestCase):
    @classmethod
    def setUpClass(cls):
        cls.proved = Proved(LIBRARY)

    def test_blocks(self):
        for name, key, plain, cipher in map(bytes_of, BLOCKS):
            with self.subTest(name):
                self.assertEqual(self.proved.encrypted(key, plain), cipher)
                self.assertEqual(self.proved.decrypted(key, cipher), plain)

    def test_sealed_texts(self):
        """Each block of the ciphertext: the last is what the library hands out, and the one before the padding of a front of
        whole blocks decides the ciphertext's last."""
        for name, key, iv, plain, data in map(bytes_of, TEXTS):
            with self.subTest(name):
                self.assertEqual(self.proved.sealed(key, iv, plain), data[-BLOCK:])
                for end in range(BLOCK, len(data), BLOCK):
                    padded = self.proved.encrypted(key, xor(PADDING, data[end - BLOCK : end]))
                    self.assertEqual(self.proved.sealed(key, iv, plain[:end]), padded, end)

    def test_opened_texts(self):
        """Each block of the plain text, as the last of a front, and what stands after the last whole one behind a block that
        the vector opens to."""
        for name, key, iv, plain, data in map(bytes_of, TEXTS):
            with self.subTest(name):
                front = self.proved.decrypted(key, iv)
                self.assertEqual(self.proved.opened(key, ZEROS, iv + data), (front + plain)[-BLOCK:])
                self.assertEqual(self.proved.opened(key, iv, data), plain[-BLOCK:] if len(plain) >= BLOCK else ZEROS)
                for end in range(BLOCK, len(data), BLOCK):
                    padded = self.proved.encrypted(key, xor(PADDING, data[end - BLOCK : end]))
                    self.assertEqual(self.proved.opened(key, iv, data[:end] + padded), plain[end - BLOCK : end], end)

    def test_refused_texts(self):
        key = bytes([1]) * 32
        for count in NO_WHOLE_BLOCKS:
            self.assertIsNone(self.proved.opened(key, bytes([2]) * BLOCK, bytes([3]) * count), count)
        for block in NO_PADDING:
            self.assertIsNone(self.proved.opened(key, ZEROS, self.proved.encrypted(key, block)), block.hex())
        self.assertEqual(self.proved.opened(key, ZEROS, self.proved.encrypted(key, PADDING)), ZEROS)

    def test_macs(self):
        for name, key, text, mac in MACS:
            with self.subTest(name):
                self.assertEqual(self.proved.hmac(key, text).hex(), mac)
                if len(text) == 64:
                    self.assertEqual([each.hex() for each in self.proved.macs(key, text)], [mac, mac])

    def test_a_mac_that_is_cut_short(self):
        """RFC 4231, test case 5, which gives the first 16 bytes."""
        mac = self.proved.hmac(bytes([0x0C]) * 20, b"Test With Truncation")
        self.assertEqual(mac[:16].hex(), "a3b6167473100ee06e0c796c2955552b")

    def test_derived_keys(self):
        for password, salt, cost, key in DERIVED:
            with self.subTest(password=password, cost=cost):
                self.assertEqual(self.proved.derived(password, salt, cost).hex(), key)

    def test_keys(self):
        for password, identifier, cost, nonce, salt, pw, mk, ak, check in KEYS:
            with self.subTest(identifier=identifier, cost=cost):
                words = identifier.encode(), cost, nonce.encode()
                self.assertEqual(self.proved.salt(*words), salt.encode())
                keys = self.proved.keys(password.encode(), *words)
                self.assertEqual([key.hex() for key in keys], [pw, mk, ak])
                self.assertEqual(self.proved.check_value(keys[0]).hex(), check)


if __name__ == "__main__":
    unittest.main()
