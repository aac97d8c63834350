/* The shipped library called through its header, as C and as C++: answers whose values are known from docs/SCOPE.md. */
#include "expect.h"
#include "vienghulac.h"

/* W2: the example, and W3: the same as gossip. */
static const char field[] = "Autocrypt: addr=bob@b.example; prefer-encrypt=mutual; keydata=\r\n Zm9v\r\n";
static const char gossip[] = "Autocrypt-Gossip: addr=bob@b.example; keydata=\r\n Zm9v\r\n";

/* Mail from Bob, a reply of Carol's with gossip about Dave, and what follows for a mail to them. */
static const char from_bob[] = "From: Bob <Bob@b.example>\nAutocrypt: addr=bob@b.example; prefer-encrypt=mutual; keydata=Zm9v\n\n";
static const char from_carol[] = "From: carol@c.example\nTo: bob@b.example, dave@d.example\n\n";
static const char payload[] = "Autocrypt-Gossip: addr=dave@d.example; keydata=YmFy\n\n";

static const char to_bob[] = "bob@b.example", to_all[] = "Bob <bob@b.example>, x: dave@d.example;";

/* Do a start and a length lead to these octets of the table? */
static bool leads_to(const uint8_t *table, uint64_t start, uint64_t length, const char *text) {
    return start != 0 && length == strlen(text) && memcmp(table + start, text, length) == 0;
}

/* Are there nothing but zeros, and is all from the twelfth number on as it was lent? */
static bool holds_nothing(const uint64_t *numbers, uint64_t behind) {
    bool zeros = true;
    for (int i = 0; i < VIENGHULAC_NUMBERS; i++) zeros &= numbers[i] == 0;
    return zeros && numbers[VIENGHULAC_NUMBERS] == behind;
}

/* T14, on the entries after the talk below: Bob's key came with his own mail, Carol has none, Dave's came with Carol's. */
static void look(uint8_t *table, size_t length) {
    vienghulac_numbers bob, carol, dave;
    vienghulac_answer a = vienghulac_entry(table, length, 0, &bob.used, VIENGHULAC_NUMBERS);
    expect("Bob's entry", a.number == 0 && a.index == 0 && bob.used == 1);
    expect("Bob's bits", bob.bits == (VIENGHULAC_BIT_LAST_SEEN | VIENGHULAC_BIT_DIRECT | VIENGHULAC_BIT_MUTUAL));
    expect("Bob's times", bob.last_seen == 1000 && bob.autocrypt_timestamp == 1000 && bob.gossip_timestamp == 0);
    expect("Bob's address", leads_to(table, bob.address_start, bob.address_length, "bob@b.example"));
    expect("Bob's direct key", leads_to(table, bob.direct_start, bob.direct_length, "foo"));
    expect("Bob has no gossip key", bob.gossip_start == 0 && bob.gossip_length == 0);
    a = vienghulac_entry(table, length, 1, &carol.used, VIENGHULAC_NUMBERS);
    expect("Carol's entry", a.number == 0 && carol.used == 1 && carol.bits == VIENGHULAC_BIT_LAST_SEEN);
    expect("Carol's times", carol.last_seen == 2000 && carol.autocrypt_timestamp == 0 && carol.gossip_timestamp == 0);
    expect("Carol's address", leads_to(table, carol.address_start, carol.address_length, "carol@c.example"));
    expect("Carol has no direct key", carol.direct_start == 0 && carol.direct_length == 0);
    expect("Carol has no gossip key", carol.gossip_start == 0 && carol.gossip_length == 0);
    a = vienghulac_entry(table, length, 2, &dave.used, VIENGHULAC_NUMBERS);
    expect("Dave's entry", a.number == 0 && dave.used == 1 && dave.bits == VIENGHULAC_BIT_GOSSIP);
    expect("Dave's times", dave.last_seen == 0 && dave.autocrypt_timestamp == 0 && dave.gossip_timestamp == 2000);
    expect("Dave's address", leads_to(table, dave.address_start, dave.address_length, "dave@d.example"));
    expect("Dave has no direct key", dave.direct_start == 0 && dave.direct_length == 0);
    expect("Dave's gossip key", leads_to(table, dave.gossip_start, dave.gossip_length, "bar"));
}

/* T14, R12, R31 and R32: slots without an entry, and refusals, on a table of one entry and a free slot. */
static void look_for_nothing(void) {
    static uint8_t table[2 * VIENGHULAC_SLOT];
    uint64_t numbers[VIENGHULAC_NUMBERS + 1], before[VIENGHULAC_NUMBERS + 1];
    vienghulac_process(table, sizeof table, 1000, octets(from_bob), sizeof from_bob - 1, NULL, 0, VIENGHULAC_GOSSIP_UNSET);
    memset(before, 0xa5, sizeof before);

    const uint64_t empty[] = {1, 2, 256, UINT64_MAX};
    for (int i = 0; i < 4; i++) {
        memcpy(numbers, before, sizeof numbers);
        vienghulac_answer a = vienghulac_entry(table, sizeof table, empty[i], numbers, VIENGHULAC_NUMBERS + 1);
        expect("a slot without an entry", a.number == 0 && a.index == 0 && holds_nothing(numbers, before[0]));
    }
    memcpy(numbers, before, sizeof numbers);
    vienghulac_answer a = vienghulac_entry(table, sizeof table, 0, numbers, VIENGHULAC_NUMBERS + 1);
    expect("a twelfth number stays", a.number == 0 && numbers[0] == 1 && numbers[VIENGHULAC_NUMBERS] == before[0]);

    memcpy(numbers, before, sizeof numbers);
    a = vienghulac_entry(table, sizeof table, 0, numbers, VIENGHULAC_NUMBERS - 1);
    expect("ten numbers", a.number == 12 && a.index == 0);
    a = vienghulac_entry(table, sizeof table, 2, NULL, 0);
    expect("no numbers", a.number == 12 && a.index == 0);
    a = vienghulac_entry(table, sizeof table - 1, 0, numbers, VIENGHULAC_NUMBERS);
    expect("no whole slots", a.number == 1 && a.index == 0);
    a = vienghulac_entry(NULL, 0, 0, NULL, 0);
    expect("no table and no numbers", a.number == 1 && a.index == 0);
    table[2 * VIENGHULAC_SLOT - 1] = 1;
    a = vienghulac_entry(table, sizeof table, 0, numbers, VIENGHULAC_NUMBERS);
    expect("a broken slot", a.number == 2 && a.index == 1);
    a = vienghulac_entry(table, sizeof table, 0, numbers, 0);
    expect("a broken slot and no numbers", a.number == 2 && a.index == 1);
    expect("refusals leave the numbers", memcmp(numbers, before, sizeof numbers) == 0);
    expect("the struct is the numbers", sizeof(vienghulac_numbers) == VIENGHULAC_NUMBERS * sizeof(uint64_t));
}

/* A used slot by T3, with times of one octet: last seen, and a direct key of that time if there is one. */
static void store(uint8_t *slot, const char *address, uint8_t seen, const char *key) {
    memset(slot, 0, VIENGHULAC_SLOT);
    memcpy(slot, "A1", 2);
    slot[2] = (uint8_t)strlen(address);
    slot[4] = VIENGHULAC_BIT_LAST_SEEN;
    slot[8] = seen;
    memcpy(slot + 40, address, strlen(address));
    if (!key) return;
    slot[4] |= VIENGHULAC_BIT_DIRECT;
    slot[16] = seen;
    slot[32] = (uint8_t)strlen(key);
    memcpy(slot + 296, key, strlen(key));
}

/* T16 to T20: two spellings of one address as they were once told apart, with a free slot and Carol between them. */
static void bring_up_to_date(void) {
    static const char capital[] = "j\xc3\x96rg@f.example", small[] = "j\xc3\xb6rg@f.example";
    static const char shouted[] = "J\xc3\x96RG@F.example";
    static uint8_t table[4 * VIENGHULAC_SLOT], before[sizeof table], merged[sizeof table];
    store(table, capital, 9, "foo");
    store(table + 2 * VIENGHULAC_SLOT, "carol@c.example", 5, NULL);
    store(table + 3 * VIENGHULAC_SLOT, small, 20, NULL);
    memcpy(before, table, sizeof table);
    memcpy(merged, table, 3 * VIENGHULAC_SLOT);
    store(merged, small, 9, "foo");
    merged[8] = 20;

    vienghulac_answer a = vienghulac_check(table, sizeof table);
    expect("an old spelling is refused", a.number == 2 && a.index == 0);
    a = vienghulac_process(table, sizeof table, 1000, octets(from_bob), sizeof from_bob - 1, NULL, 0, 0);
    expect("also by process", a.number == 2 && a.index == 0);
    a = vienghulac_convert(table, sizeof table - 1);
    expect("convert: no whole slots", a.number == 1 && a.index == 0);
    a = vienghulac_convert(NULL, 0);
    expect("convert: no table", a.number == 1 && a.index == 0);
    table[3 * VIENGHULAC_SLOT + 40] = 'J';
    a = vienghulac_convert(table, sizeof table);
    expect("convert: a capital of ASCII", a.number == 2 && a.index == 3);
    table[3 * VIENGHULAC_SLOT + 40] = 'j';
    table[2 * VIENGHULAC_SLOT - 1] = 1;
    a = vienghulac_convert(table, sizeof table);
    expect("convert: a free slot with content", a.number == 2 && a.index == 1);
    table[2 * VIENGHULAC_SLOT - 1] = 0;
    expect("what is refused is not converted", memcmp(table, before, sizeof table) == 0);

    a = vienghulac_convert(table, sizeof table);
    expect("convert", a.number == 0 && a.index == 0);
    expect("two entries became one", memcmp(table, merged, sizeof table) == 0);
    a = vienghulac_check(table, sizeof table);
    expect("what is converted is a table", a.number == 0 && a.index == 0);
    a = vienghulac_convert(table, sizeof table);
    expect("converting twice", a.number == 0 && a.index == 0 && memcmp(table, merged, sizeof table) == 0);
    vienghulac_part part =
        vienghulac_target_key(table, sizeof table, octets(shouted), sizeof shouted - 1, false, false, 0);
    expect("the key of each spelling", leads_to(table, part.start, part.length, "foo"));
    memset(table, 0, sizeof table);
    a = vienghulac_convert(table, sizeof table);
    expect("zeros stay", a.number == 0 && a.index == 0);
    memset(before, 0, sizeof before);
    expect("and nothing is written", memcmp(table, before, sizeof table) == 0);
}

/* L8, L22, W12: addresses, their canonical forms, and what is shown. Where a digit of base sixteen follows an octet,
 * another literal begins. */
static const struct {
    const char *address, *form, *shown;
} shows[] = {
    {"Bob.B@X.Example", "bob.b@x.example", "bob.b@x.example"},
    {"A@B\xc3\x9c" "CHER.Example", "a@xn--bcher-kva.example", "a@b\xc3\xbc" "cher.example"},
    {"A@XN--BCHER-KVA.example", "a@xn--bcher-kva.example", "a@b\xc3\xbc" "cher.example"},
    {"\xc3\x96@\xc3\x96", "\xc3\xb6@xn--nda", "\xc3\xb6@\xc3\xb6"},
    {"a@xn--\xc3\xa9", "a@xn--xn---epa", "a@xn--\xc3\xa9"},
    {"a@\xc3\xa9-\xc3\xa9", "a@xn----9fab", "a@\xc3\xa9-\xc3\xa9"},
    {"a@xn--a", "a@xn--a", "a@\xc2\x80"},
    {"a@xn--dca", "a@xn--dca", "a@xn--dca"},
    {"a@xn----bga", "a@xn----bga", "a@xn----bga"},
    {"a@xn--zzzzzzzz", "a@xn--zzzzzzzz", "a@xn--zzzzzzzz"},
    {"\xff" "A@xn--nda", "\xff" "a@xn--nda", "\xff" "a@\xc3\xb6"},
    /* two samples of RFC 3492, 7.1 (B and E) */
    {"a@\xe4\xbb\x96\xe4\xbb\xac\xe4\xb8\xba\xe4\xbb\x80\xe4\xb9\x88\xe4\xb8\x8d\xe8\xaf\xb4\xe4\xb8\xad\xe6\x96\x87",
     "a@xn--ihqwcrb4cv8a8dqg056pqjye",
     "a@\xe4\xbb\x96\xe4\xbb\xac\xe4\xb8\xba\xe4\xbb\x80\xe4\xb9\x88\xe4\xb8\x8d\xe8\xaf\xb4\xe4\xb8\xad\xe6\x96\x87"},
    {"a@Pro\xc4\x8dprost\xc4\x9bnemluv\xc3\xad\xc4\x8d" "esky",
     "a@xn--proprostnemluvesky-uyb24dma41a",
     "a@pro\xc4\x8dprost\xc4\x9bnemluv\xc3\xad\xc4\x8d" "esky"},
};

/* R9: none of these is a plain address. */
static const char *const shows_not[] = {
    "", "a@-\xc3\xa9", "a@\xc3\xa9-", "a@\xc3\xa9_", "a@\xc3\xa9..b", "a@\xc3", "a@\xed\xa0\x80", "a@xn--",
    " a@b", "a@b ", "<a@b>", "A <a@b>", "<a@\xc3\xa9>",
};

/* Is the address shown so: in just enough room, with nothing behind it, and not in less? */
static bool is_shown(const char *address, const char *shown) {
    const size_t given = strlen(address), length = strlen(shown);
    uint8_t out[VIENGHULAC_DISPLAY + 1], before[sizeof out];
    memset(before, '?', sizeof before);
    memcpy(out, before, sizeof out);
    vienghulac_written r = vienghulac_display(octets(address), given, NULL, 0);
    bool right = r.number == 12 && r.length == 0;
    r = vienghulac_display(octets(address), given, out, length - 1);
    right &= r.number == 12 && r.length == 0 && memcmp(out, before, sizeof out) == 0;
    r = vienghulac_display(octets(address), given, out, length);
    right &= r.number == 0 && r.length == length && memcmp(out, shown, length) == 0;
    right &= memcmp(out + length, before + length, sizeof out - length) == 0;
    memcpy(out, before, sizeof out);
    r = vienghulac_display(octets(address), given, out, VIENGHULAC_DISPLAY);
    right &= r.number == 0 && r.length == length && memcmp(out, shown, length) == 0;
    return right & (memcmp(out + length, before + length, sizeof out - length) == 0);
}

/* Is it refused with 9, whatever room there is, and nothing written? */
static bool is_not_shown(const char *address) {
    uint8_t out[VIENGHULAC_DISPLAY], before[sizeof out];
    memset(before, '?', sizeof before);
    memcpy(out, before, sizeof out);
    vienghulac_written r = vienghulac_display(octets(address), strlen(address), NULL, 0);
    bool right = r.number == 9 && r.length == 0;
    r = vienghulac_display(octets(address), strlen(address), out, sizeof out);
    return right && r.number == 9 && r.length == 0 && memcmp(out, before, sizeof out) == 0;
}

/* The canonical form of an address, as a field has it: its length, 0 where there is none. */
static size_t form_of(const char *address, char form[255]) {
    static const char name[] = "Autocrypt: addr=", rest[] = "; keydata=\r\n Zm9v\r\n";
    uint8_t out[VIENGHULAC_FIELD];
    vienghulac_written r =
        vienghulac_write_autocrypt(octets(address), strlen(address), octets("foo"), 3, false, out, sizeof out);
    if (r.number != 0 || r.length > sizeof name - 1 + 254 + sizeof rest - 1) return 0;
    const size_t length = (size_t)r.length - (sizeof name - 1) - (sizeof rest - 1);
    memcpy(form, out + sizeof name - 1, length);
    form[length] = 0;
    return length;
}

static void show(void) {
    char form[255];
    for (size_t i = 0; i < sizeof shows / sizeof *shows; i++) {
        form_of(shows[i].address, form);
        expect("a canonical form", strcmp(form, shows[i].form) == 0);
        expect("an address shown", is_shown(shows[i].address, shows[i].shown));
        expect("its form shown", is_shown(shows[i].form, shows[i].shown));
        expect("what is shown, typed back", is_shown(shows[i].shown, shows[i].shown));
        form_of(shows[i].shown, form);
        expect("it has the same form", strcmp(form, shows[i].form) == 0);
    }
    for (size_t i = 0; i < sizeof shows_not / sizeof *shows_not; i++) {
        expect("no plain address is shown", is_not_shown(shows_not[i]));
        expect("nor written", form_of(shows_not[i], form) == 0);
    }
    vienghulac_written r = vienghulac_display(NULL, 0, NULL, 0);
    expect("nothing lent to show", r.number == 9 && r.length == 0);
}

/* Puts a text so many times behind an address, with another one between two. */
static void put_times(char *address, const char *text, int many, const char *between) {
    for (int i = 0; i < many; i++) {
        if (i) strcat(address, between);
        strcat(address, text);
    }
}

/* L6, L7: is an address of labels, each of so many times a text, the longest of its kind? Its form has this length, and
 * is shown as the address; one more of them, or of the labels, and there is none. */
static bool grows(const char *text, int many, int labels, size_t length, const char *between) {
    char address[1024] = "a@", form[255] = "", label[256] = "";
    put_times(label, text, many, "");
    put_times(address, label, labels, ".");
    bool right = form_of(address, form) == length && is_shown(address, address) && is_shown(form, address);
    strcat(address, between);
    strcat(address, text);
    return right && form_of(address, form) == 0 && is_not_shown(address);
}

static void grow(void) {
    static const int most[] = {55, 55, 55, 52};
    char address[1024] = "", form[255] = "";
    expect("57 letters of two octets", grows("\xc3\xa9", 57, 1, 2 + 63, ""));
    expect("57 letters of three octets", grows("\xe4\xbb\x96", 57, 1, 2 + 63, ""));
    expect("63 letters of ASCII", grows("a", 63, 1, 2 + 63, ""));
    expect("31 labels", grows("\xc3\xa9", 1, 31, 249, "."));
    for (int i = 0; i < 4; i++) {
        strcat(address, i ? "." : "a@");
        put_times(address, "\xf4\x8f\xbf\xbf", most[i], "");
    }
    expect("873 octets become 254", strlen(address) == 873 && form_of(address, form) == 254);
    expect("and are shown", is_shown(address, address) && is_shown(form, address));
    memmove(address + 1, address, strlen(address) + 1);
    expect("255 are too many", is_not_shown(address) && form_of(address, form) == 0);
}

/* Carol's mail for a new table of two slots, with a payload and a setting: the answer, and the table afterwards. */
static vienghulac_answer hand_down(uint8_t *table, const char *block, size_t length, int value) {
    memset(table, 0, 2 * VIENGHULAC_SLOT);
    return vienghulac_process(table, 2 * VIENGHULAC_SLOT, 2000, octets(from_carol), sizeof from_carol - 1,
                              block ? octets(block) : NULL, length, (uint8_t)value);
}

/* G1, G2 and R7: every value of the setting, with gossip in the payload and with a payload that cannot be read. */
static void ask_for_gossip(void) {
    static uint8_t table[2 * VIENGHULAC_SLOT], empty[sizeof table], alone[sizeof table], told[sizeof table];
    expect("the numbers of the setting",
           VIENGHULAC_GOSSIP_UNSET == 0 && VIENGHULAC_GOSSIP_TAKE == 1 && VIENGHULAC_GOSSIP_SKIP == 2);
    hand_down(alone, NULL, 0, VIENGHULAC_GOSSIP_UNSET);
    hand_down(told, payload, sizeof payload - 1, VIENGHULAC_GOSSIP_TAKE);
    expect("gossip leaves the sender's slot", memcmp(alone, told, VIENGHULAC_SLOT) == 0);
    expect("gossip has a slot of its own", leads_to(told, VIENGHULAC_SLOT + 2344, 3, "bar"));
    vienghulac_answer a = hand_down(table, NULL, 0, VIENGHULAC_GOSSIP_TAKE);
    expect("take, and no payload", a.number == 0 && a.index == 0 && memcmp(table, alone, sizeof table) == 0);
    bool unread = true, heard = true;
    for (int value = 0; value < 256; value++) {
        bool takes = value == VIENGHULAC_GOSSIP_TAKE;
        a = hand_down(table, "no field", 8, value);
        unread &= a.number == (takes ? 7u : 0u) && a.index == 0;
        unread &= memcmp(table, takes ? empty : alone, sizeof table) == 0;
        a = hand_down(table, payload, sizeof payload - 1, value);
        heard &= a.number == 0 && a.index == 0 && memcmp(table, takes ? told : alone, sizeof table) == 0;
    }
    expect("a payload that cannot be read is refused with take alone", unread);
    expect("gossip is heard with take alone", heard);
}

/* Pages U, G and A on a small table, then refusals 3, 4, 5, 8, 10 and 1. */
static void talk(void) {
    static uint8_t table[3 * VIENGHULAC_SLOT], before[sizeof table];
    const uint8_t *bob = octets(to_bob), *all = octets(to_all);
    const size_t one = sizeof to_bob - 1, both = sizeof to_all - 1;

    vienghulac_advice advice = vienghulac_recommend(table, sizeof table, bob, one, true, false);
    expect("no entry", advice.number == 0 && advice.index == 0 && advice.advice == VIENGHULAC_DISABLE);
    vienghulac_answer a = vienghulac_process(table, sizeof table, 1000, octets(from_bob), sizeof from_bob - 1, NULL, 0,
                                             VIENGHULAC_GOSSIP_UNSET);
    expect("Bob's mail", a.number == 0 && a.index == 0);
    advice = vienghulac_recommend(table, sizeof table, bob, one, true, false);
    expect("both mutual", advice.number == 0 && advice.advice == VIENGHULAC_ENCRYPT);
    advice = vienghulac_recommend(table, sizeof table, bob, one, false, false);
    expect("not mutual", advice.advice == VIENGHULAC_AVAILABLE);
    vienghulac_part part = vienghulac_target_key(table, sizeof table, bob, one, false, false, 0);
    expect("Bob's key", part.length == 3 && memcmp(table + part.start, "foo", 3) == 0);

    a = vienghulac_process(table, sizeof table, 2000, octets(from_carol), sizeof from_carol - 1, octets(payload),
                           sizeof payload - 1, VIENGHULAC_GOSSIP_UNSET);
    advice = vienghulac_recommend(table, sizeof table, all, both, false, true);
    expect("Carol's mail, gossip not asked for", a.number == 0 && advice.advice == VIENGHULAC_DISABLE);
    a = vienghulac_process(table, sizeof table, 2000, octets(from_carol), sizeof from_carol - 1, octets(payload),
                           sizeof payload - 1, VIENGHULAC_GOSSIP_TAKE);
    expect("Carol's mail", a.number == 0);
    advice = vienghulac_recommend(table, sizeof table, all, both, true, false);
    expect("a gossip key only", advice.advice == VIENGHULAC_DISCOURAGE);
    advice = vienghulac_recommend(table, sizeof table, all, both, false, true);
    expect("a reply", advice.advice == VIENGHULAC_ENCRYPT);
    part = vienghulac_target_key(table, sizeof table, all, both, false, false, 1);
    expect("Dave's key", part.length == 3 && memcmp(table + part.start, "bar", 3) == 0);
    part = vienghulac_target_key(table, sizeof table, all, both, false, false, 2);
    expect("past the list", part.start == 0 && part.length == 0);

    memcpy(before, table, sizeof table);
    look(table, sizeof table);
    a = vienghulac_process(table, sizeof table, 3000, octets("From: e@e\n"), 10, NULL, 0, VIENGHULAC_GOSSIP_SKIP);
    expect("a full table", a.number == 8 && a.index == 0);
    a = vienghulac_process(table, sizeof table, 253402300800, octets(from_bob), sizeof from_bob - 1, NULL, 0, 0);
    expect("a receipt time above the limit", a.number == 3);
    a = vienghulac_process(table, sizeof table, 3000, octets("no field"), 8, NULL, 0, 0);
    expect("an unreadable block", a.number == 4);
    a = vienghulac_process(table, sizeof table, 3000, NULL, 0, NULL, 0, 0);
    expect("no sender", a.number == 5);
    expect("refusals write nothing", memcmp(table, before, sizeof table) == 0);
    advice = vienghulac_recommend(table, sizeof table, NULL, 0, true, true);
    expect("no recipients", advice.number == 10 && advice.advice == VIENGHULAC_REFUSED);
    advice = vienghulac_recommend(table, sizeof table - 1, bob, one, true, true);
    expect("no whole slots", advice.number == 1 && advice.advice == VIENGHULAC_REFUSED);
}

/* Lists, and the answer for each without and with a reply; k@x has a key, g@x one by gossip, n@x an entry without any,
 * and o@x no entry. The first five are the table of A13. */
static const struct {
    const char *recipients;
    vienghulac_quick plain, reply;
} quickly[] = {
    {"k@x, n@x, k@x, n@x", {0, 0, VIENGHULAC_DISABLE, 2}, {0, 0, VIENGHULAC_DISABLE, 2}},
    {"k@x, k@x", {0, 0, VIENGHULAC_AVAILABLE, 2}, {0, 0, VIENGHULAC_ENCRYPT, 2}},
    {"n@x", {0, 0, VIENGHULAC_DISABLE, 1}, {0, 0, VIENGHULAC_DISABLE, 1}},
    {"e:;, g: k@x, n@x;, k@x", {0, 0, VIENGHULAC_DISABLE, 2}, {0, 0, VIENGHULAC_DISABLE, 2}},
    {"n@x,", {10, 0, VIENGHULAC_REFUSED, 0}, {10, 0, VIENGHULAC_REFUSED, 0}},
    {"g@x, K@X, g@x", {0, 0, VIENGHULAC_DISCOURAGE, 3}, {0, 0, VIENGHULAC_ENCRYPT, 3}},
    {"g@x, k@x, e:;, o@x", {0, 0, VIENGHULAC_DISABLE, 3}, {0, 0, VIENGHULAC_DISABLE, 3}},
    {"o@x, k@x, g: k@x", {10, 0, VIENGHULAC_REFUSED, 0}, {10, 0, VIENGHULAC_REFUSED, 0}},
};

/* Is this the quick answer, and has vienghulac_recommend the same three numbers? */
static bool is_quick(const uint8_t *table, size_t length, const char *list, bool reply, vienghulac_quick expected) {
    vienghulac_quick quick = vienghulac_recommend_quick(table, length, octets(list), strlen(list), false, reply);
    vienghulac_advice plain = vienghulac_recommend(table, length, octets(list), strlen(list), false, reply);
    return memcmp(&quick, &expected, sizeof quick) == 0 && plain.number == expected.number &&
           plain.index == expected.index && plain.advice == expected.advice;
}

/* A13, A14: lists of 99, 100 and 101, the first disable nowhere, at the last place, at the fiftieth and so on. */
static void ask_for_many(const uint8_t *table, size_t length) {
    const vienghulac_quick too_many = {10, 0, VIENGHULAC_REFUSED, 0};
    for (uint32_t many = 99; many <= 101; many++) {
        const uint32_t places[] = {many, 50, 2, 1};
        char list[4 * 101 + 1] = "";
        put_times(list, "k@x", (int)many, ",");
        vienghulac_quick expected = {0, 0, VIENGHULAC_AVAILABLE, many};
        expect("a long list", is_quick(table, length, list, false, many > 100 ? too_many : expected));
        expected.advice = VIENGHULAC_DISABLE;
        for (int i = 0; i < 4; i++) {
            list[4 * (places[i] - 1)] = 'n';
            expected.looked_up = places[i];
            expect("a long list with a disable", is_quick(table, length, list, true, many > 100 ? too_many : expected));
        }
    }
}

/* A12 to A14, and R31: the quick answer and its refusals. */
static void ask_quickly(void) {
    static uint8_t table[4 * VIENGHULAC_SLOT], before[sizeof table];
    const vienghulac_quick no_table = {1, 0, VIENGHULAC_REFUSED, 0}, no_list = {10, 0, VIENGHULAC_REFUSED, 0};
    const vienghulac_quick broken = {2, 3, VIENGHULAC_REFUSED, 0};
    store(table, "k@x", 9, "foo");
    store(table + VIENGHULAC_SLOT, "n@x", 5, NULL);
    store(table + 2 * VIENGHULAC_SLOT, "g@x", 5, NULL);
    table[2 * VIENGHULAC_SLOT + 4] |= VIENGHULAC_BIT_GOSSIP;
    table[2 * VIENGHULAC_SLOT + 34] = 1;
    table[2 * VIENGHULAC_SLOT + 2344] = 'g';
    memcpy(before, table, sizeof table);

    for (size_t i = 0; i < sizeof quickly / sizeof *quickly; i++) {
        expect("a quick answer", is_quick(table, sizeof table, quickly[i].recipients, false, quickly[i].plain));
        expect("and for a reply", is_quick(table, sizeof table, quickly[i].recipients, true, quickly[i].reply));
    }
    ask_for_many(table, sizeof table);
    expect("the table stays", memcmp(table, before, sizeof table) == 0);

    expect("quickly: no recipients", is_quick(table, sizeof table, "", false, no_list));
    expect("quickly: no whole slots", is_quick(table, sizeof table - 1, "k@x", false, no_table));
    table[4 * VIENGHULAC_SLOT - 1] = 1;
    expect("quickly: a broken slot", is_quick(table, sizeof table, "n@x", false, broken));
    expect("quickly: a broken slot and no list", is_quick(table, sizeof table, "n@x,", false, broken));
    vienghulac_quick q = vienghulac_recommend_quick(NULL, 0, NULL, 0, true, true);
    expect("quickly: nothing lent", memcmp(&q, &no_table, sizeof q) == 0);
}

/* O10: what stands behind From and To, a payload, and the faults; and the kinds that are not among them. */
#define SENT "From: a@b\r\nTo: c@d\r\n"
#define VALID "Autocrypt: addr=a@b; keydata=Zg==\r\n"
static const struct {
    const char *outer, *payload;
    uint32_t count;
    vienghulac_fault faults[4];
} lints[] = {
    {SENT "Autocrypt: x=1\r\n", "", 4,
     {{0, 0, VIENGHULAC_FAULT_NO_VALID}, {0, 3, VIENGHULAC_FAULT_WRONG_ADDRESS},
      {0, 3, VIENGHULAC_FAULT_UNKNOWN_ATTRIBUTE}, {0, 3, VIENGHULAC_FAULT_KEY_DATA}}},
    {SENT "Autocrypt: x=1\r\n" VALID, "", 3,
     {{0, 3, VIENGHULAC_FAULT_WRONG_ADDRESS}, {0, 3, VIENGHULAC_FAULT_UNKNOWN_ATTRIBUTE},
      {0, 3, VIENGHULAC_FAULT_KEY_DATA}}},
    {SENT "Autocrypt: addr=a@b; keydata=Zg==;\r\n", "", 2,
     {{0, 0, VIENGHULAC_FAULT_NO_VALID}, {0, 3, VIENGHULAC_FAULT_KEY_DATA}}},
    {SENT VALID, "", 0, {{0, 0, 0}}},
    {SENT "Autocrypt-Gossip:\r\n", "", 4,
     {{0, 0, VIENGHULAC_FAULT_NO_VALID}, {0, 3, VIENGHULAC_FAULT_KEY_DATA}, {0, 3, VIENGHULAC_FAULT_GOSSIP_OUTSIDE},
      {0, 3, VIENGHULAC_FAULT_GOSSIP_UNLISTED}}},
    {SENT, "Autocrypt-Gossip:\r\n", 3,
     {{0, 0, VIENGHULAC_FAULT_NO_VALID}, {1, 1, VIENGHULAC_FAULT_KEY_DATA}, {1, 1, VIENGHULAC_FAULT_GOSSIP_UNLISTED}}},
    {SENT, "Autocrypt-Gossip: addr=C@D; keydata=Zg==\r\n", 1, {{0, 0, VIENGHULAC_FAULT_NO_VALID}}},
    {SENT VALID VALID "X: y\r\n z\r\n" VALID, "X:\n\t\nautocrypt-GOSSIP: addr=c@d; prefer-encrypt=; keydata=Zg==", 3,
     {{0, 4, VIENGHULAC_FAULT_MORE_VALID}, {0, 6, VIENGHULAC_FAULT_MORE_VALID},
      {1, 2, VIENGHULAC_FAULT_GOSSIP_PREFERENCE}}},
};

enum { LINT_ROOM = 6 }; /* faults, more than any of these has */

/* R12, R32: are these the faults, in a list of each length up to some more than they take? A list that is too short
 * stays as it was, and so do the numbers behind the faults. */
static bool is_linted(const char *outer, const char *inner, uint32_t count, const vienghulac_fault *faults) {
    vienghulac_fault list[LINT_ROOM], before[LINT_ROOM];
    bool right = true;
    memset(before, 0xa5, sizeof before);
    for (size_t room = 0; room <= 3 * LINT_ROOM; room++) {
        const bool fits = room >= 3 * count;
        const size_t written = fits ? count * sizeof *list : 0;
        memcpy(list, before, sizeof list);
        vienghulac_linted l =
            vienghulac_lint(octets(outer), strlen(outer), octets(inner), strlen(inner), &list[0].block, room);
        right &= l.number == (fits ? 0u : 12u) && l.count == (fits ? count : 0u);
        right &= written == 0 || memcmp(list, faults, written) == 0;
        right &= memcmp((uint8_t *)list + written, (uint8_t *)before + written, sizeof list - written) == 0;
    }
    return right;
}

/* R31: is this number answered, with a count of 0, whatever room there is, and nothing written? */
static bool is_not_linted(const char *outer, const char *inner, uint32_t number) {
    vienghulac_fault list[LINT_ROOM], before[LINT_ROOM];
    bool right = true;
    memset(before, 0xa5, sizeof before);
    memcpy(list, before, sizeof list);
    for (size_t room = 0; room <= 3 * LINT_ROOM; room += 3 * LINT_ROOM) {
        vienghulac_linted l =
            vienghulac_lint(octets(outer), strlen(outer), octets(inner), strlen(inner), &list[0].block, room);
        right &= l.number == number && l.count == 0 && memcmp(list, before, sizeof list) == 0;
    }
    return right;
}

/* C23: a mail from Bob to Bob with what the writers wrote, and the same with its gossip in the outer block. */
static void look_over_our_own(void) {
    static const vienghulac_fault outside[] = {{0, 4, VIENGHULAC_FAULT_GOSSIP_OUTSIDE}};
    char outer[400] = "From: Bob <bob@b.example>\r\nCc: BOB@B.example\r\n", inner[200] = "";
    uint8_t out[100];
    const uint8_t *bob = octets("bob@b.example"), *key = octets("foo");
    vienghulac_written w = vienghulac_write_autocrypt(bob, 13, key, 3, true, out, sizeof out);
    strncat(outer, (const char *)out, w.length);
    w = vienghulac_write_gossip(bob, 13, key, 3, out, sizeof out);
    strncat(inner, (const char *)out, w.length);
    expect("our own fields", is_linted(outer, inner, 0, NULL) && is_linted(outer, "", 0, NULL));
    strcat(outer, inner);
    expect("our own gossip outside", is_linted(outer, inner, 1, outside));
}

/* Page O, with R4, R5, R7, R12 and R31. */
static void look_over(void) {
    for (size_t i = 0; i < sizeof lints / sizeof *lints; i++) {
        expect("faults", is_linted(lints[i].outer, lints[i].payload, lints[i].count, lints[i].faults));
    }
    look_over_our_own();
    expect("a fault is three numbers", sizeof(vienghulac_fault) == 3 * sizeof(uint32_t));
    expect("the kinds in their order",
           VIENGHULAC_FAULT_NO_VALID == 1 && VIENGHULAC_FAULT_MORE_VALID == 2 && VIENGHULAC_FAULT_WRONG_ADDRESS == 3 &&
           VIENGHULAC_FAULT_UNKNOWN_ATTRIBUTE == 4 && VIENGHULAC_FAULT_KEY_DATA == 5 &&
           VIENGHULAC_FAULT_GOSSIP_OUTSIDE == 6 && VIENGHULAC_FAULT_GOSSIP_UNLISTED == 7 &&
           VIENGHULAC_FAULT_GOSSIP_PREFERENCE == 8);
    expect("lint: an unreadable block",
           is_not_linted("no field", "no field", 4) && is_not_linted(SENT "no field", "", 4));
    expect("lint: no sender", is_not_linted("", "no field", 5) && is_not_linted(SENT SENT, "", 5));
    expect("lint: an unreadable payload", is_not_linted(SENT "Autocrypt: x=1\r\n", "no field", 7));
    expect("lint: a report", is_linted(SENT VALID "Content-Type: multipart/report\r\n", "", 0, NULL));
    vienghulac_linted l = vienghulac_lint(NULL, 0, NULL, 0, NULL, 0);
    expect("lint: nothing lent", l.number == 5 && l.count == 0);
    l = vienghulac_lint(octets(SENT VALID), sizeof SENT VALID - 1, NULL, 0, NULL, 0);
    expect("lint: no list, and no faults", l.number == 0 && l.count == 0);
    l = vienghulac_lint(octets(SENT), sizeof SENT - 1, NULL, 0, NULL, 0);
    expect("lint: no list", l.number == 12 && l.count == 0);
}

int main(void) {
    talk();
    ask_quickly();
    ask_for_gossip();
    look_for_nothing();
    bring_up_to_date();
    show();
    grow();
    look_over();
    const uint8_t *address = octets("Bob@b.Example"), *key = octets("foo");
    const size_t address_length = 13, length = sizeof field - 1;
    uint8_t out[128], before[128];
    memset(out, '?', sizeof out);
    memcpy(before, out, sizeof out);

    /* W1, R34: refusals 9, 11 and 12 in this order, with length 0. */
    vienghulac_written r = vienghulac_write_autocrypt(NULL, 0, NULL, 0, true, NULL, 0);
    expect("nothing lent", r.number == 9 && r.length == 0);
    r = vienghulac_write_autocrypt(address, address_length, NULL, 0, true, out, sizeof out);
    expect("no key", r.number == 11 && r.length == 0);
    r = vienghulac_write_autocrypt(address, address_length, key, 3, true, out, length - 1);
    expect("one octet short", r.number == 12 && r.length == 0);
    expect("a refusal writes nothing", memcmp(out, before, sizeof out) == 0);
    /* W6: an output of just that length is enough, and octets behind the field stay. */
    r = vienghulac_write_autocrypt(address, address_length, key, 3, true, out, length);
    expect("just enough", length == 71 && r.number == 0 && r.length == length && memcmp(out, field, length) == 0);
    expect("nothing behind it", memcmp(out + length, before + length, sizeof out - length) == 0);
    r = vienghulac_write_gossip(address, address_length, key, 3, out, sizeof out);
    expect("gossip", r.number == 0 && r.length == sizeof gossip - 1 && memcmp(out, gossip, r.length) == 0);

    /* T13, R1 and R2. */
    static uint8_t table[2 * VIENGHULAC_SLOT];
    vienghulac_answer a = vienghulac_check(table, sizeof table);
    expect("zeros are a table", a.number == 0 && a.index == 0);
    a = vienghulac_check(table, sizeof table - 1);
    expect("no whole slots", a.number == 1 && a.index == 0);
    table[2 * VIENGHULAC_SLOT - 1] = 1;
    a = vienghulac_check(table, sizeof table);
    expect("a free slot with content", a.number == 2 && a.index == 1);
    a = vienghulac_check(NULL, 0);
    expect("no table", a.number == 1);
    return counted();
}
