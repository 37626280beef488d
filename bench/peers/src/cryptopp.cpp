// Crypto++'s LSH-256-256 and LSH-512-512 of a whole message, and HMAC over them, for the benchmark to call.
#include <cstddef>
#include <cstdint>

#include <cryptopp/hmac.h>
#include <cryptopp/lsh.h>

extern "C" void cryptopp_lsh256(const std::uint8_t *message, std::size_t length, std::uint8_t *digest)
{
    CryptoPP::LSH256().CalculateDigest(digest, message, length);
}

extern "C" void cryptopp_lsh512(const std::uint8_t *message, std::size_t length, std::uint8_t *digest)
{
    CryptoPP::LSH512().CalculateDigest(digest, message, length);
}

extern "C" void cryptopp_hmac256(const std::uint8_t *key, std::size_t key_length, const std::uint8_t *message, std::size_t length,
                                 std::uint8_t *tag)
{
    CryptoPP::HMAC<CryptoPP::LSH256>(key, key_length).CalculateDigest(tag, message, length);
}

extern "C" void cryptopp_hmac512(const std::uint8_t *key, std::size_t key_length, const std::uint8_t *message, std::size_t length,
                                 std::uint8_t *tag)
{
    CryptoPP::HMAC<CryptoPP::LSH512>(key, key_length).CalculateDigest(tag, message, length);
}
