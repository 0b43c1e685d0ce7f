/* SipHash of the bytes 0, 1, .. of each length from 0 to 40. */
#ifndef SIP_VECTORS_H
#define SIP_VECTORS_H

#include <stdint.h>

/* SipHash-2-4 with the secret 0, 1, .. 15: the first rows of `vectors_sip64` in vectors.h of the authors' reference, github.com/veorq/SipHash,
 * read as little-endian words. The row of 15 bytes is the example in appendix A of their paper. */
static const uint64_t sip_2_4[41] = {
    0x726fdb47dd0e0e31, 0x74f839c593dc67fd, 0x0d6c8009d9a94f5a, 0x85676696d7fb7e2d, 0xcf2794e0277187b7, 0x18765564cd99a68d,
    0xcbc9466e58fee3ce, 0xab0200f58b01d137, 0x93f5f5799a932462, 0x9e0082df0ba9e4b0, 0x7a5dbbc594ddb9f3, 0xf4b32f46226bada7,
    0x751e8fbc860ee5fb, 0x14ea5627c0843d90, 0xf723ca908e7af2ee, 0xa129ca6149be45e5, 0x3f2acc7f57c29bdb, 0x699ae9f52cbe4794,
    0x4bc1b3f0968dd39c, 0xbb6dc91da77961bd, 0xbed65cf21aa2ee98, 0xd0f2cbb02e3b67c7, 0x93536795e3a33e88, 0xa80c038ccd5ccec8,
    0xb8ad50c6f649af94, 0xbce192de8a85b8ea, 0x17d835b85bbb15f3, 0x2f2e6163076bcfad, 0xde4daaaca71dc9a5, 0xa6a2506687956571,
    0xad87a3535c49ef28, 0x32d892fad841c342, 0x7127512f72f27cce, 0xa7f32346f95978e3, 0x12e0b01abb051238, 0x15e034d40fa197ae,
    0x314dffbe0815a3b4, 0x027990f029623981, 0xcadcd4e59ef40c4d, 0x9abfd8766a33735c, 0x0e3ea96b5304a7d0,
};

/* SipHash-1-3 with the secret 0: what CPython 3.11 hashes, which is its own implementation. The authors give no rows for these rounds. For each
 * length n: PYTHONHASHSEED=0 python3 -c "print(hex(hash(bytes(range(n))) % 2**64))". CPython hashes no empty text: the first row is what Rust's
 * std::hash::DefaultHasher::new().finish() returns. */
static const uint64_t sip_1_3[41] = {
    0xd1fba762150c532c, 0x68a914128e01e473, 0x010bac45c41e3669, 0x4d4c9a4a8ef6e0ad, 0x7cc43f98813e4dbd, 0x5abe2169dff36275,
    0xe3c25f87624f1cdb, 0x2f098ab0c751325a, 0xead411e67ebe2eea, 0x75927f9d95124362, 0xaf9f77a65ab51a1d, 0xfe64ce8b6617fcff,
    0xa6baf4fb0f9fe1c2, 0xa0cf3211850f8e0d, 0x7f86049379fbfe67, 0xf30eb725bb91c9ea, 0x8972188433a5c5b7, 0x4883c49a2c009c1d,
    0xadc2c0b63044067d, 0x091f4a3329f87d19, 0x639e355ae68c0100, 0xb17bef2cb5213239, 0xf8aeb1066236ccfe, 0x37332b1389daa4ff,
    0x31185a47af932f3a, 0xebf352e82ae23e2f, 0xed36ff242fe478b2, 0x2454d97d299299df, 0x8cd57fe8130d0ac7, 0xbe98eb2faf0a0e85,
    0xd427c34ee09470c6, 0x169739443111d49b, 0x31ef8061c910629b, 0x7fb71d24dfa4c9f6, 0x92771f49e836d389, 0x3c393cf6f0853bc3,
    0xac77921fcc642bd3, 0x422a9751192ff266, 0xc680ae8a8c584ddf, 0x6c76b6d34bb6d26b, 0x95bc321ab41d8206,
};

/* The same with 128 bits, as two words. SipHash-2-4 with the secret 0, 1, .. 15: what OpenSSL 3.0 hashes, and the crate
 * siphasher 0.3.10, which are two implementations of their own. */
static const uint64_t sip_2_4_128[41][2] = {
    {0xe6a825ba047f81a3, 0x930255c71472f66d}, {0x44af996bd8c187da, 0x45fc229b11597634}, {0xc75da4a48d227781, 0xe4ff0af6de8ba3fc},
    {0x4ea967520cb6709c, 0x51ed8529b0b6335f}, {0xaf8f9c2dc16481f8, 0x7955cd7b7c6e0f7d}, {0x886f778059876813, 0x27960e69077a5254},
    {0x1386208b33caee14, 0x5ea1d78f30a05e48}, {0x53c1dbd8beebf1a1, 0x3982f01fa64ab8c0}, {0x61f55862baa9623b, 0xb49714f364e2830f},
    {0xabbad90a06994426, 0xed716dbb028b7fc4}, {0x56691478c30d1100, 0xbafbd0f3d34754c9}, {0x77666b3868c55101, 0x18dce5816fdcb4a2},
    {0x58f35e9066b226d6, 0x25c13285f64d6382}, {0x108bc0e947e26998, 0xf752b9c44f9329d0}, {0x9cded766aceffc31, 0x024949e45f48c77e},
    {0x11a8b03399e99354, 0xd9c3cf970fec087e}, {0xbb54b067caa4e26e, 0x77052385bf1533fd}, {0x98b88d73e8063d47, 0x4077e47ac466c054},
    {0x8548bf23e4e526a4, 0x23f7aefe81a44d29}, {0xb0fa65cf31770178, 0xb12e51528920d574}, {0x7390223f83fc259e, 0xeb3938e8a544933e},
    {0x215a52be5a498e56, 0x121d073ecd14228a}, {0x9a6bd15245b5294a, 0xae0aff8e52109c46}, {0xe0f5a9d5dd84d1c9, 0x1c69bf9a9ae28ccf},
    {0xd850bd78ae79b42d, 0xad32618a178a2a88}, {0x7b445e2d045fce8e, 0x6f8f8dcbeab95150}, {0xe807c3b3b4530b9c, 0x661f147886e0ae7e},
    {0xe4eaa669af48f2ab, 0x94eb9e122febd3bf}, {0x884b576816da6406, 0xf4ae587302f335b9}, {0xe97d33bfc49d4baa, 0xb76a7c463cfdd40c},
    {0xde6baf1f477f5cea, 0x87226d68d4d71a2b}, {0xfcfa233218b03929, 0x353dc4524fde2317}, {0x3efcea5eca56397c, 0x68eb4665559d3e36},
    {0x321cf0467107c677, 0xcfffa94e5f9db6b6}, {0xdf7e84b86c98a637, 0xde549b30f1f02509}, {0xf9a8a99de6f005a7, 0xc88c3c922e1a2407},
    {0x4648c4291f7dc43d, 0x11674f90ed769e1e}, {0x1a0efce601bf620d, 0x2b69d3c551473c0d}, {0x9e667cca8b46038c, 0xb5e7be4b085efde4},
    {0x9c2caf3bb95b8a52, 0xd92bd2d0e5cc7344}, {0xad5dc9951e306adf, 0xd83b91c6c80cae97},
};

/* SipHash-1-3 of 128 bits with that secret: what OpenSSL 3.0 hashes, which is its own implementation. The authors give no rows for these rounds.
 * For each length: openssl mac -macopt hexkey:000102030405060708090a0b0c0d0e0f -macopt size:16 -macopt c-rounds:1 -macopt d-rounds:3 -in FILE SIPHASH
 */
static const uint64_t sip_1_3_128[41][2] = {
    {0xbea58827b2bc7ee7, 0x013030dd6adb62fd}, {0xa8edd36004376ffc, 0x63f02f2bcc73055e}, {0x9b836905097f7875, 0x95ea6a8c54c95b85},
    {0x9ff7dc1efaccc56b, 0x43d7eb1277182348}, {0x5a282bac714e780c, 0x252cbf8fe7928e9f}, {0x0c625b3489db28f3, 0x3e849526a4295279},
    {0x10e743f7293dd0dc, 0xf8a68539e8b05109}, {0xc3e0aaf223b98410, 0x77ab4808c82e2fa6}, {0xb4dae3d5e1fe12aa, 0x99c7f935ab164f72},
    {0x9439f32c04b8dd81, 0x427c1394000e72f4}, {0x898e495d1d54aa4f, 0xb42fb287c3a40eba}, {0xdb914455f39a3b72, 0x4e0c6efc3d63d6b1},
    {0xa819489e85923fe5, 0x658cea9f739506dc}, {0x1d80eac9c758f8b2, 0x4478656d5903d653}, {0x7222c9db6862e787, 0x78e3645f66cab026},
    {0x6c52bdb205557ec1, 0x09017e1eeccd2129}, {0xeb8e511557d9a8d0, 0x93179e3df8b013b5}, {0x8d66bb3ff9264123, 0xecf7bdfee8125197},
    {0x4d708fb73df042ef, 0x2b09b7169f443c02}, {0x61f10ac23862f7ab, 0xe9bc26554d4b31b2}, {0x0bcf90bb112f2c3c, 0xb7e9912e9bca35e3},
    {0x922aa0220f687a2a, 0xefe0ec0fd24951f4}, {0x3ed41d2330d1a8c9, 0x7937f8576945e642}, {0xb9ea5c40847b121d, 0x59c5e69b5a77d89f},
    {0xca92fdbc37f84b9e, 0x4ad0841a06d209ce}, {0xafb4735d961a0339, 0xd2b173f9184d275a}, {0x4e7ed609120a4d7f, 0x64adcfe138756fd0},
    {0x38cedcfb40e21ee6, 0x93dd2749d24c9f96}, {0x8cdd0f7bb3a23b4c, 0x1494b289c1955efa}, {0xddec6f06cad46fe0, 0x866f89d85a8a0654},
    {0x80659c13344ca85c, 0x0607729049f28aa8}, {0x8b853c5b1c96ea42, 0x1090a7df50e5c317}, {0xb25778e6de446c40, 0xd317740cf3603194},
    {0xf4fc2013ae7bf5c5, 0x6bc6561de768e8b4}, {0xe76b675b7a73bf04, 0xf9bff47d0105dec3}, {0xea07193fc0c96351, 0x4f7b72305ced4410},
    {0xda8e7102f010a137, 0x40f153e49e3f4bd2}, {0xdad3ed1a387e87b9, 0x10ac23ff753ec308}, {0x4cdac55e0004507c, 0x9331725c0e44c95a},
    {0x46c6db833724b881, 0x6cb4bd2ad80c9dca}, {0x13b4b93e54205750, 0x38f9eed9fa3c0bd5},
};

#endif
