// Botan's McEliece (n = 2960, t = 57) as three calls without arguments: a new key, a sealing with it, the opening of that sealing.
#include <botan/chacha_rng.h>
#include <botan/mceliece.h>
#include <botan/pubkey.h>
#include <botan/version.h>
#include <memory>

namespace {
struct State {
    Botan::ChaCha_RNG rng{Botan::secure_vector<uint8_t>(32, 7)};
    std::unique_ptr<Botan::McEliece_PrivateKey> key;
    std::unique_ptr<Botan::PK_KEM_Encryptor> encryptor;
    std::unique_ptr<Botan::PK_KEM_Decryptor> decryptor;
    Botan::secure_vector<uint8_t> cipher, sealed, opened;
};

// never freed: at the end of the process Botan's own allocator may be gone before it
State& state()
{
    static State* const one = new State;
    return *one;
}

const char* const KDF = "KDF1(SHA-512)";
}

extern "C" const char* botan_version_text()
{
    static const std::string text = Botan::short_version_string();
    return text.c_str();
}

extern "C" void botan_keygen()
{
    State& s = state();
    s.decryptor.reset();
    s.encryptor.reset();
    s.key = std::make_unique<Botan::McEliece_PrivateKey>(s.rng, 2960, 57);
}

extern "C" void botan_encrypt()
{
    State& s = state();
    if (!s.encryptor) s.encryptor = std::make_unique<Botan::PK_KEM_Encryptor>(*s.key, s.rng, KDF);
    s.encryptor->encrypt(s.cipher, s.sealed, 64, s.rng);
}

// answers 1 where the opening gives what was sealed
extern "C" int botan_decrypt()
{
    State& s = state();
    if (!s.decryptor) s.decryptor = std::make_unique<Botan::PK_KEM_Decryptor>(*s.key, s.rng, KDF);
    s.opened = s.decryptor->decrypt(s.cipher.data(), s.cipher.size(), 64);
    return s.opened == s.sealed;
}
