/* Whether the signature of a row is good, by OpenSSL's libcrypto. Nothing here is proved: a wrong answer is a forged signature. */
#include "answer.h"
#include <openssl/core_names.h>
#include <openssl/evp.h>
#include <openssl/params.h>
#include <openssl/rsa.h>
#include <openssl/x509.h>
#include <stdlib.h>
#include <string.h>

struct octets { uint8_t *at; size_t length; };

static int value_of(char c) {
    if (c >= 'A' && c <= 'Z') return c - 'A';
    if (c >= 'a' && c <= 'z') return c - 'a' + 26;
    if (c >= '0' && c <= '9') return c - '0' + 52;
    return c == '+' ? 62 : c == '/' ? 63 : -1;
}

static uint8_t *decode_base64(const char *text, size_t length, size_t *octets) {
    if (length % 4) return NULL;
    uint8_t *out = malloc(length / 4 * 3 + 1);
    if (!out) return NULL;
    size_t n = 0;
    for (size_t i = 0; i < length; i += 4) {
        int pad = i + 4 < length ? 0 : (text[i + 3] == '=') + (text[i + 3] == '=' && text[i + 2] == '=');
        uint32_t bits = 0;
        for (int j = 0; j < 4; j++) {
            int v = j < 4 - pad ? value_of(text[i + j]) : 0;
            if (v < 0) { free(out); return NULL; }
            bits = bits << 6 | (uint32_t)v;
        }
        /* (no bits left over) */
        if ((pad == 1 && bits & 0xff) || (pad == 2 && bits & 0xffff)) { free(out); return NULL; }
        out[n++] = bits >> 16;
        if (pad < 2) out[n++] = bits >> 8 & 0xff;
        if (pad < 1) out[n++] = bits & 0xff;
    }
    *octets = n;
    return out;
}

/* A dash for no bytes, and else base64 of one or more. */
uint8_t *field_of(const char *text, size_t length, size_t *bytes) {
    *bytes = 0;
    if (length == 1 && *text == '-') return malloc(1);
    return length ? decode_base64(text, length, bytes) : NULL;
}

static const struct scheme {
    const char *name, *digest;
    enum { EC, RSA_KEY, RAW } sort;
    int padding, size;
    const char *group;
} schemes[] = {
    {"ECDSA_P256_SHA256", "SHA256", EC, 0, 65, "prime256v1"}, {"ECDSA_P256_SHA384", "SHA384", EC, 0, 65, "prime256v1"},
    {"ECDSA_P384_SHA256", "SHA256", EC, 0, 97, "secp384r1"}, {"ECDSA_P384_SHA384", "SHA384", EC, 0, 97, "secp384r1"},
    {"ED25519", NULL, RAW, 0, 32, NULL},
    {"RSA_PKCS1_SHA256", "SHA256", RSA_KEY, RSA_PKCS1_PADDING, 0, NULL}, {"RSA_PKCS1_SHA384", "SHA384", RSA_KEY, RSA_PKCS1_PADDING, 0, NULL},
    {"RSA_PKCS1_SHA512", "SHA512", RSA_KEY, RSA_PKCS1_PADDING, 0, NULL}, {"RSA_PSS_SHA256", "SHA256", RSA_KEY, RSA_PKCS1_PSS_PADDING, 0, NULL},
    {"RSA_PSS_SHA384", "SHA384", RSA_KEY, RSA_PKCS1_PSS_PADDING, 0, NULL}, {"RSA_PSS_SHA512", "SHA512", RSA_KEY, RSA_PKCS1_PSS_PADDING, 0, NULL},
};

/* A tag and a length before contents, written backwards into a buffer that ends at `end`. */
static uint8_t *before(uint8_t *end, uint8_t tag, size_t length) {
    if (length < 128) *--end = (uint8_t)length;
    else {
        int n = 0;
        for (; length; length >>= 8, n++) *--end = length & 0xff;
        *--end = 0x80 | n;
    }
    *--end = tag;
    return end;
}

/* Whether a key is spelled so, as an RSAPublicKey in DER, and has an exponent that is odd and not 1 (RFC 8017, 3.1). */
static bool is_rsa_key(const EVP_PKEY *key, const struct octets *spelled) {
    BIGNUM *exponent = NULL;
    uint8_t *der = NULL;
    int length = i2d_PublicKey(key, &der);
    bool right = length > 0 && (size_t)length == spelled->length && !memcmp(der, spelled->at, spelled->length)
        && EVP_PKEY_get_bn_param(key, OSSL_PKEY_PARAM_RSA_E, &exponent) == 1 && BN_is_odd(exponent) && !BN_is_one(exponent);
    BN_free(exponent);
    OPENSSL_free(der);
    return right;
}

/* The key of an RSAPublicKey, which is read within a SubjectPublicKeyInfo. */
static EVP_PKEY *rsa_key_of(const struct octets *key) {
    static const uint8_t algorithm[] = {0x30, 0x0d, 6, 9, 0x2a, 0x86, 0x48, 0x86, 0xf7, 0x0d, 1, 1, 1, 5, 0};
    uint8_t buffer[2200], *end = buffer + sizeof buffer, *at = end - key->length;
    memcpy(at, key->at, key->length);
    *--at = 0;
    at = before(at, 3, end - at);
    at -= sizeof algorithm;
    memcpy(at, algorithm, sizeof algorithm);
    at = before(at, 0x30, end - at);
    const uint8_t *read = at;
    EVP_PKEY *found = d2i_PUBKEY(NULL, &read, end - at);
    if (found && (read != end || !is_rsa_key(found, key))) { EVP_PKEY_free(found); return NULL; }
    return found;
}

/* The key of a point, of raw octets, or of an RSAPublicKey. */
static EVP_PKEY *key_of(const struct scheme *scheme, const struct octets *key) {
    if (scheme->sort == RSA_KEY ? key->length >= 2048 : key->length != (size_t)scheme->size) return NULL;
    if (scheme->sort == RAW) return EVP_PKEY_new_raw_public_key_ex(NULL, "ED25519", NULL, key->at, key->length);
    if (scheme->sort == EC) {
        if (key->at[0] != 4) return NULL;
        OSSL_PARAM params[] = {
            OSSL_PARAM_construct_utf8_string(OSSL_PKEY_PARAM_GROUP_NAME, (char *)scheme->group, 0),
            OSSL_PARAM_construct_octet_string(OSSL_PKEY_PARAM_PUB_KEY, key->at, key->length),
            OSSL_PARAM_construct_end(),
        };
        EVP_PKEY *found = NULL;
        EVP_PKEY_CTX *ctx = EVP_PKEY_CTX_new_from_name(NULL, "EC", NULL);
        if (!ctx || EVP_PKEY_fromdata_init(ctx) != 1 || EVP_PKEY_fromdata(ctx, &found, EVP_PKEY_PUBLIC_KEY, params) != 1) found = NULL;
        EVP_PKEY_CTX_free(ctx);
        return found;
    }
    return rsa_key_of(key);
}

static bool verifies(const struct scheme *scheme, EVP_PKEY *key, const struct octets *subject, const struct octets *signature) {
    if (!scheme->digest) {
        EVP_MD_CTX *ctx = EVP_MD_CTX_new();
        bool good = ctx && EVP_DigestVerifyInit(ctx, NULL, NULL, NULL, key) == 1
            && EVP_DigestVerify(ctx, signature->at, signature->length, subject->at, subject->length) == 1;
        EVP_MD_CTX_free(ctx);
        return good;
    }
    const EVP_MD *digest = EVP_get_digestbyname(scheme->digest);
    if (!digest || subject->length != (size_t)EVP_MD_get_size(digest)) return false;
    EVP_PKEY_CTX *ctx = EVP_PKEY_CTX_new(key, NULL);
    bool good = ctx && EVP_PKEY_verify_init(ctx) == 1
        && (scheme->sort != RSA_KEY || EVP_PKEY_CTX_set_rsa_padding(ctx, scheme->padding) == 1)
        && EVP_PKEY_CTX_set_signature_md(ctx, digest) == 1
        && (scheme->padding != RSA_PKCS1_PSS_PADDING
            || (EVP_PKEY_CTX_set_rsa_pss_saltlen(ctx, RSA_PSS_SALTLEN_DIGEST) == 1 && EVP_PKEY_CTX_set_rsa_mgf1_md(ctx, digest) == 1))
        && EVP_PKEY_verify(ctx, signature->at, signature->length, subject->at, subject->length) == 1;
    EVP_PKEY_CTX_free(ctx);
    return good;
}

static bool signature_holds(const struct octets *fields, const char *name, size_t length) {
    if (!fields[2].length) return false;
    for (size_t i = 0; i < sizeof schemes / sizeof *schemes; i++) {
        if (strlen(schemes[i].name) != length || memcmp(schemes[i].name, name, length)) continue;
        EVP_PKEY *key = key_of(&schemes[i], &fields[0]);
        bool good = key && verifies(&schemes[i], key, &fields[1], &fields[2]);
        EVP_PKEY_free(key);
        return good;
    }
    return false;
}

bool is_good(const char *line, size_t length) {
    const char *words[5], *end = line + length;
    size_t lengths[5], count = 0;
    for (const char *at = line;; at++) {
        const char *next = memchr(at, ' ', end - at);
        if (!next) next = end;
        if (count == 5) return false;
        words[count] = at;
        lengths[count++] = next - at;
        at = next;
        if (at == end) break;
    }
    if (count != 5 || lengths[0] != 6 || memcmp(words[0], "accept", 6)) return false;
    struct octets fields[3] = {{0}};
    bool good = true;
    for (size_t i = 0; i < 3; i++) {
        fields[i].at = field_of(words[i + 2], lengths[i + 2], &fields[i].length);
        good = good && fields[i].at;
    }
    good = good && signature_holds(fields, words[1], lengths[1]);
    for (int i = 0; i < 3; i++) free(fields[i].at);
    return good;
}
