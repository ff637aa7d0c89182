/*
 * A contract that keeps one count.
 *
 *   instantiate  {"count":N}             begins with the count N, and notes who made the contract
 *   execute      {"increment":{}}        adds one; anybody may
 *                {"reset":{"count":N}}   sets the count to N; only who made the contract may
 *   query        {"count":{}}            answers {"count":N}
 *   migrate      {}                      takes over the count of the code before
 *
 * N is a whole number from 0 to 18446744073709551615. A message has to be spelled exactly as here, without spaces.
 *
 * There is no library below this file. A contract needs very little: the host gives it texts and takes a text back, and
 * keeps bytes for it under keys.
 */

typedef unsigned char byte;
typedef unsigned int word;          /* 32 bits, as all places in a contract's memory */
typedef unsigned long long number;  /* 64 bits */

/* ---- What passes between host and contract ---- */

/* Bytes in memory: where they begin, how many fit there, how many there are. The host knows this layout. */
struct region {
    byte *bytes;
    word capacity;
    word length;
};

/* What this contract asks of the host. Each is paid for with gas. */
#define FROM_HOST(name) __attribute__((import_module("env"), import_name(name)))
FROM_HOST("db_read") struct region *db_read(const struct region *key);
FROM_HOST("db_write") void db_write(const struct region *key, const struct region *value);

/* What the host finds in this contract. */
#define FOR_HOST(name) __attribute__((export_name(name)))

/* ---- Memory ---- */

#define PAGE 65536

extern byte __heap_base;  /* the first byte behind the stack and the texts of this file; the linker places it */
static byte *free_place = &__heap_base;

/* Gives room that is never taken back: each call of the contract starts with a new memory, and needs little. */
static byte *room_for(word size) {
    byte *start = free_place;
    word wanted = ((word)start + size + 7) & ~7u;
    word there = __builtin_wasm_memory_size(0) * PAGE;
    if (wanted < (word)start) {
        __builtin_trap();
    }
    if (wanted > there && __builtin_wasm_memory_grow(0, (wanted - there + PAGE - 1) / PAGE) == (word)-1) {
        __builtin_trap();
    }
    free_place = (byte *)wanted;
    return start;
}

/* The host calls this before it hands over bytes, and then writes them there and sets the length. */
FOR_HOST("allocate") struct region *allocate(word size) {
    struct region *region = (struct region *)room_for(sizeof(struct region));
    region->bytes = room_for(size);
    region->capacity = size;
    region->length = 0;
    return region;
}

/* The host calls this once it has read a result. Nothing is taken back. */
FOR_HOST("deallocate") void deallocate(struct region *region) {
    (void)region;
}

/* ---- Texts ---- */

/* The region of a text that stands in this file. */
#define TEXT(text) ((struct region){(byte *)(text), sizeof(text) - 1, sizeof(text) - 1})

static void append_byte(struct region *to, byte value) {
    if (to->length == to->capacity) {
        __builtin_trap();
    }
    to->bytes[to->length] = value;
    to->length += 1;
}

static void append(struct region *to, struct region text) {
    for (word place = 0; place < text.length; place += 1) {
        append_byte(to, text.bytes[place]);
    }
}

static void append_number(struct region *to, number value) {
    byte digits[20];
    word count = 0;
    do {
        digits[count] = '0' + value % 10;
        value /= 10;
        count += 1;
    } while (value > 0);
    while (count > 0) {
        count -= 1;
        append_byte(to, digits[count]);
    }
}

static int is_same(struct region left, struct region right) {
    if (left.length != right.length) {
        return 0;
    }
    for (word place = 0; place < left.length; place += 1) {
        if (left.bytes[place] != right.bytes[place]) {
            return 0;
        }
    }
    return 1;
}

/* Takes a text off the front, and says whether it stood there. */
static int take(struct region *from, struct region text) {
    if (from->length < text.length || !is_same((struct region){from->bytes, text.length, text.length}, text)) {
        return 0;
    }
    from->bytes += text.length;
    from->length -= text.length;
    return 1;
}

/* Takes a number off the front, and says whether one of 64 bits stood there. */
static int take_number(struct region *from, number *value) {
    const number most = ~0ull;
    word digits = 0;
    *value = 0;
    while (from->length > 0 && *from->bytes >= '0' && *from->bytes <= '9') {
        number digit = *from->bytes - '0';
        if (*value > most / 10 || *value * 10 > most - digit) {
            return 0;
        }
        *value = *value * 10 + digit;
        from->bytes += 1;
        from->length -= 1;
        digits += 1;
    }
    return digits > 0;
}

/* Reads a text that is a front, a number and a back, and nothing else. */
static int reads_number(struct region from, struct region front, number *value, struct region back) {
    return take(&from, front) && take_number(&from, value) && is_same(from, back);
}

/* ---- Answers ---- */

static struct region *refuse(struct region reason) {
    struct region *answer = allocate(256);
    append(answer, TEXT("{\"error\":\""));
    append(answer, reason);
    append(answer, TEXT("\"}"));
    return answer;
}

/* Tells what was done. The host makes an event of it. */
static struct region *tell(struct region action, number count) {
    struct region *answer = allocate(256);
    append(answer, TEXT("{\"ok\":{\"attributes\":[{\"key\":\"action\",\"value\":\""));
    append(answer, action);
    append(answer, TEXT("\"},{\"key\":\"count\",\"value\":\""));
    append_number(answer, count);
    append(answer, TEXT("\"}]}}"));
    return answer;
}

/* Bytes within an answer are written in base64: three bytes make four letters, and = stands where a byte is missing. */
static void append_base64(struct region *to, struct region from) {
    static const char letters[] = "ABCDEFGHIJKLMNOPQRSTUVWXYZabcdefghijklmnopqrstuvwxyz0123456789+/";
    for (word place = 0; place < from.length; place += 3) {
        word left = from.length - place;
        word group = from.bytes[place] << 16;
        group |= left > 1 ? from.bytes[place + 1] << 8 : 0;
        group |= left > 2 ? from.bytes[place + 2] : 0;
        append_byte(to, letters[group >> 18]);
        append_byte(to, letters[group >> 12 & 63]);
        append_byte(to, left > 1 ? letters[group >> 6 & 63] : '=');
        append_byte(to, left > 2 ? letters[group & 63] : '=');
    }
}

/* ---- What is kept ---- */

/* The count is kept as its digits. It is always there: instantiate wrote it. */
static number kept_count(void) {
    struct region key = TEXT("count");
    struct region *kept = db_read(&key);
    number count;
    if (!kept || !take_number(kept, &count)) {
        __builtin_trap();
    }
    return count;
}

static void keep_count(number count) {
    struct region key = TEXT("count");
    struct region *digits = allocate(20);
    append_number(digits, count);
    db_write(&key, digits);
}

/* Who called. The host's text of it always ends with "sender":"ADDRESS"}, and an address has no quotes. */
static struct region sender_in(const struct region *info) {
    word end = info->length - 2;
    word start = end;
    while (info->bytes[start - 1] != '"') {
        start -= 1;
    }
    return (struct region){info->bytes + start, end - start, end - start};
}

static int is_creator(struct region sender) {
    struct region key = TEXT("creator");
    struct region *creator = db_read(&key);
    return creator && is_same(*creator, sender);
}

/* ---- What the host calls ---- */

/* That this name is there tells the host how to talk with the contract. */
FOR_HOST("interface_version_8") void interface_version_8(void) {}

FOR_HOST("instantiate")
struct region *instantiate(struct region *environment, struct region *info, struct region *message) {
    struct region key = TEXT("creator");
    struct region creator = sender_in(info);
    number count;
    (void)environment;
    if (!reads_number(*message, TEXT("{\"count\":"), &count, TEXT("}"))) {
        return refuse(TEXT("instantiate takes {'count':N}"));
    }
    db_write(&key, &creator);
    keep_count(count);
    return tell(TEXT("instantiate"), count);
}

static struct region *increment(void) {
    number count = kept_count();
    if (count == ~0ull) {
        return refuse(TEXT("the count is as large as it can be"));
    }
    keep_count(count + 1);
    return tell(TEXT("increment"), count + 1);
}

static struct region *reset(struct region sender, number count) {
    if (!is_creator(sender)) {
        return refuse(TEXT("only the creator may reset the count"));
    }
    keep_count(count);
    return tell(TEXT("reset"), count);
}

FOR_HOST("execute")
struct region *execute(struct region *environment, struct region *info, struct region *message) {
    number count;
    (void)environment;
    if (is_same(*message, TEXT("{\"increment\":{}}"))) {
        return increment();
    }
    if (reads_number(*message, TEXT("{\"reset\":{\"count\":"), &count, TEXT("}}"))) {
        return reset(sender_in(info), count);
    }
    return refuse(TEXT("execute takes {'increment':{}} or {'reset':{'count':N}}"));
}

FOR_HOST("query")
struct region *query(struct region *environment, struct region *message) {
    struct region *found = allocate(64);
    struct region *answer = allocate(256);
    (void)environment;
    if (!is_same(*message, TEXT("{\"count\":{}}"))) {
        return refuse(TEXT("query takes {'count':{}}"));
    }
    append(found, TEXT("{\"count\":"));
    append_number(found, kept_count());
    append(found, TEXT("}"));
    append(answer, TEXT("{\"ok\":\""));
    append_base64(answer, *found);
    append(answer, TEXT("\"}"));
    return answer;
}

FOR_HOST("migrate")
struct region *migrate(struct region *environment, struct region *message) {
    (void)environment;
    if (!is_same(*message, TEXT("{}"))) {
        return refuse(TEXT("migrate takes {}"));
    }
    return tell(TEXT("migrate"), kept_count());
}
