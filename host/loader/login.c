/*
 * The login, which is the host's own and no part of the library: the server's greeting (handshake version 10), the answer to it, and
 * the switch to mysql_native_password. No TLS: the loader stands beside its server, or behind a tunnel.
 */
#include "loader.h"

#include <openssl/crypto.h>
#include <openssl/evp.h>
#include <stdlib.h>
#include <string.h>

enum { SCRAMBLE = 20, DIGEST = 20, PASSWORD_LONGEST = 4096 };
enum { UTF8MB4_GENERAL_CI = 45 };

enum {
    LONG_PASSWORD = 0x1,
    LONG_FLAG = 0x4,
    CONNECT_WITH_DB = 0x8,
    COMPRESS = 0x20,
    PROTOCOL_41 = 0x200,
    TRANSACTIONS = 0x2000,
    SECURE_CONNECTION = 0x8000,
    PLUGIN_AUTH = 0x80000
};

static const char native[] = "mysql_native_password";

struct greeting {
    uint32_t flags;
    uint8_t scramble[SCRAMBLE];
};

/* Reads a packet of the login from the front; `good` stays false once something is missing. */
struct reader {
    const uint8_t *bytes;
    size_t len, at;
    bool good;
};

static const uint8_t *take(struct reader *reader, size_t count)
{
    static const uint8_t nothing[SCRAMBLE + 1];
    if (!reader->good || reader->len - reader->at < count) {
        reader->good = false;
        return nothing;
    }
    reader->at += count;
    return reader->bytes + reader->at - count;
}

static const uint8_t *take_text(struct reader *reader, size_t *len)
{
    const uint8_t *start = reader->bytes + reader->at;
    const uint8_t *end = reader->good && reader->at < reader->len ? memchr(start, 0, reader->len - reader->at) : NULL;
    if (!end) {
        reader->good = false;
        *len = 0;
        return start;
    }
    *len = (size_t)(end - start);
    reader->at += *len + 1;
    return start;
}

static bool read_greeting(const struct line *line, struct greeting *greeting)
{
    struct reader reader = {line->packet, line->len, 0, true};
    size_t len;
    if (*take(&reader, 1) != 10)
        return fail("the server greets with another protocol than version 10");
    take_text(&reader, &len); /* the server's version */
    take(&reader, 4);         /* the connection's number */
    memcpy(greeting->scramble, take(&reader, 8), 8);
    take(&reader, 1);
    greeting->flags = little(take(&reader, 2), 2);
    take(&reader, 3); /* character set, status */
    greeting->flags |= little(take(&reader, 2), 2) << 16;
    take(&reader, 11); /* the scramble's length, and what is reserved */
    memcpy(greeting->scramble + 8, take(&reader, SCRAMBLE - 8), SCRAMBLE - 8);
    return reader.good || fail("the server's greeting is cut short");
}

static bool sha1(const uint8_t *bytes, size_t len, uint8_t digest[DIGEST])
{
    unsigned made = 0;
    return (EVP_Digest(bytes, len, digest, &made, EVP_sha1(), NULL) == 1 && made == DIGEST) || fail("libcrypto gives no SHA-1");
}

/* SHA1(password) xor SHA1(scramble, SHA1(SHA1(password))) */
static bool native_answer(const uint8_t *password, size_t len, const uint8_t scramble[SCRAMBLE], uint8_t answer[DIGEST])
{
    uint8_t once[DIGEST], salted[SCRAMBLE + DIGEST], mask[DIGEST];
    memcpy(salted, scramble, SCRAMBLE);
    bool good = sha1(password, len, once) && sha1(once, DIGEST, salted + SCRAMBLE) && sha1(salted, sizeof salted, mask);
    for (size_t i = 0; good && i < DIGEST; i++)
        answer[i] = once[i] ^ mask[i];
    OPENSSL_cleanse(once, sizeof once);
    OPENSSL_cleanse(salted, sizeof salted);
    return good;
}

/* The file's first line. An empty password is answered with no bytes at all. */
static bool password_answer(const struct options *options, const uint8_t scramble[SCRAMBLE], uint8_t answer[DIGEST], size_t *len)
{
    uint8_t *bytes = NULL;
    size_t count = 0;
    if (!file_read(options->password_file, PASSWORD_LONGEST, &bytes, &count))
        return false;
    const uint8_t *end = memchr(bytes, '\n', count);
    size_t line = end ? (size_t)(end - bytes) : count;
    bool good = line == 0 || native_answer(bytes, line, scramble, answer);
    *len = line == 0 ? 0 : DIGEST;
    OPENSSL_cleanse(bytes, count);
    free(bytes);
    return good;
}

struct writer {
    uint8_t *bytes;
    size_t room, at;
    bool good;
};

static void put(struct writer *writer, const void *bytes, size_t count)
{
    if (!writer->good || writer->room - writer->at < count) {
        writer->good = false;
        return;
    }
    memcpy(writer->bytes + writer->at, bytes, count);
    writer->at += count;
}

static void put_little(struct writer *writer, uint32_t value, size_t count)
{
    uint8_t bytes[4];
    for (size_t i = 0; i < count; i++)
        bytes[i] = (uint8_t)(value >> (8 * i));
    put(writer, bytes, count);
}

static uint32_t wanted_flags(const struct options *options)
{
    uint32_t flags = LONG_PASSWORD | LONG_FLAG | CONNECT_WITH_DB | PROTOCOL_41 | TRANSACTIONS | SECURE_CONNECTION | PLUGIN_AUTH;
    return options->stored ? flags | COMPRESS : flags;
}

/* What the loader can't do without. The others are asked for only where the server has them. */
static bool flags_good(const struct options *options, uint32_t server)
{
    if (~server & (CONNECT_WITH_DB | PROTOCOL_41 | SECURE_CONNECTION | PLUGIN_AUTH))
        return fail("the server lacks protocol 4.1, secure connections, plugins or databases at login (its flags: 0x%08lX)",
                    (unsigned long)server);
    return !options->stored || (server & COMPRESS) || fail("the server does not offer frames (CLIENT_COMPRESS)");
}

/* The answer to the greeting that the line has read last. */
bool login_answer(struct line *line, const struct options *options, uint8_t *packet, size_t room, size_t *len)
{
    static const uint8_t zeros[23];
    struct greeting greeting;
    struct writer writer = {packet, room, 0, true};
    uint8_t digest[DIGEST];
    size_t digest_len = 0;
    if (!read_greeting(line, &greeting) || !flags_good(options, greeting.flags) ||
        !password_answer(options, greeting.scramble, digest, &digest_len))
        return false;
    put_little(&writer, wanted_flags(options) & greeting.flags, 4);
    put_little(&writer, (uint32_t)options->limit, 4);
    put_little(&writer, UTF8MB4_GENERAL_CI, 1);
    put(&writer, zeros, sizeof zeros);
    put(&writer, options->user, strlen(options->user) + 1);
    put_little(&writer, (uint32_t)digest_len, 1);
    put(&writer, digest, digest_len);
    put(&writer, options->database, strlen(options->database) + 1);
    put(&writer, native, sizeof native);
    *len = writer.at;
    return writer.good || fail("the user's or the database's name is too long");
}

/* The answer to the AuthSwitchRequest that the line has read last: a digest over a new scramble, if the plugin is ours. */
bool login_switch(struct line *line, const struct options *options, uint8_t *answer, size_t room, size_t *len)
{
    struct reader reader = {line->packet, line->len, 1, true};
    char shown[65];
    size_t name_len;
    const uint8_t *name = take_text(&reader, &name_len);
    if (!reader.good)
        return fail("the server asks for the password in the form of before version 4.1");
    if (name_len != sizeof native - 1 || memcmp(name, native, name_len) != 0)
        return fail("the server asks for the plugin %s, and this loader has %s", clean(shown, sizeof shown, name, name_len), native);
    const uint8_t *scramble = take(&reader, SCRAMBLE);
    if (!reader.good || room < DIGEST)
        return fail("the server's change of plugin is cut short");
    return password_answer(options, scramble, answer, len);
}
