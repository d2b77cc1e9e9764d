/* Wrong readers and writers by bytes and words, from 168 on, and the right ones in number 0: the three calls are made here
 * whole, and IF(number) is the one thing that is wrong with that number. What is refused is the library's. */
#if FAULT == 0 || FAULT > 167
#ifndef IF
#define IF(number) (FAULT == (number))
#endif
#define LINE_BITS (8 * (uint64_t)HANSOBRIK_LINE_BYTES)

/* The next eight scrambling bits of a register, the last fifteen bits. */
static inline uint8_t eight(uint16_t *r)
{
    unsigned shift = IF(168) /* one bit too far */ ? 7 : 6;
    uint8_t key = (uint8_t)((*r ^ *r >> 1) >> shift);
    unsigned by = IF(169) /* the register moves by seven bits */ ? 7 : 8;
    *r = (uint16_t)((*r << by | key) & 0x7FFF);
    return key;
}
static inline uint64_t sixty_four(uint16_t *r)
{
    uint64_t word = 0;
    for (int i = 0; i < 8; i++)
        word = word << 8 | eight(r);
    return word;
}
static inline uint8_t turned(size_t byte) { return byte % 2 ? 0xFF : 0x00; }

/* Bytes scrambled or descrambled in place, the first of them this byte of a line: words of eight bytes, then the rest. */
static inline uint16_t mixed(uint8_t *s, size_t count, size_t byte, uint16_t r)
{
    size_t i = 0;
    uint16_t ahead = r;
    uint64_t a = 0, b = 0;
    if (IF(173) /* complemented from the first of these bytes on */)
        byte = 0;
    if (count >= 8) {
        a = sixty_four(&ahead);
        b = IF(171) /* the first word twice */ ? a : sixty_four(&ahead);
    }
    for (; count - i >= 8; i += 8) {
        for (size_t j = 0; j < 8; j++)
            s[i + j] ^= (uint8_t)(a >> (56 - 8 * j)) ^ turned(IF(174) /* words as from an even byte on */ ? j : byte + i + j);
        uint64_t near = IF(170) /* 111 places earlier, not 112 */ ? a << 17 | b >> 47 : a << 16 | b >> 48;
        uint64_t next = near ^ (a << 8 | b >> 56);
        r = (uint16_t)((IF(172) /* the register behind one word more */ ? b : a) & 0x7FFF);
        a = b;
        b = next;
    }
    for (; i < count; i++)
        s[i] ^= eight(&r) ^ turned(byte + i);
    return r;
}

/* A reading inside a line: bytes of the piece that were taken, and how many low bits of the last one are still to read. */
struct inside {
    uint64_t position;
    uint16_t r;
    uint8_t waiting;
    size_t taken;
    unsigned left;
    uint8_t byte;
};

/* As many whole bytes of the line as the piece has, but not the line's last. */
static inline void whole_bytes(struct inside *in, BYTES, uint8_t *o)
{
    size_t at = (size_t)(in->position / 8), most = HANSOBRIK_LINE_BYTES - 1 - at;
    if (IF(179) /* the last byte too */)
        most++;
    size_t count = c - in->taken < most ? c - in->taken : most;
    if (IF(178) /* the bits before the piece are lost */ && in->taken == 0)
        in->byte = 0;
    unsigned left = IF(177) /* four bits for five */ && in->left == 5 ? 4 : in->left;
    if (IF(176) /* at a byte edge the byte before */ && left == 0)
        left = 8;
    for (size_t i = 0; i < count; i++) {
        uint8_t next = p[in->taken++];
        o[at + i] = (uint8_t)((in->byte << 8 | next) >> left);
        in->byte = next;
    }
    if (IF(180) /* what is left is put down too */ && count > 0 && count < most && in->left > 0)
        o[at + count] = (uint8_t)(in->byte << (8 - in->left));
    in->r = mixed(o + at, count, at, in->r);
    in->position += 8 * count;
}

/* Bit by bit to the end of a byte of the line, or of the piece. */
static inline bool one_byte(struct inside *in, BYTES, uint8_t *o)
{
    do {
        if (in->left == 0) {
            if (in->taken == c)
                return false;
            in->byte = p[in->taken++];
            in->left = 8;
        }
        in->left--;
        uint8_t key = (uint8_t)((in->r >> 14 ^ in->r >> 13) & 1), bit = in->byte >> in->left & 1;
        in->waiting = (uint8_t)(in->waiting << 1 | (bit ^ key ^ (turned(in->position / 8) & 1)));
        in->r = (uint16_t)((in->r << 1 | key) & 0x7FFF);
        in->position++;
    } while (in->position % 8 != 0);
    o[in->position / 8 - 1] = in->waiting;
    in->waiting = 0;
    return true;
}

/* A record with every field 0, in an answer. */
static inline hansobrik_read_answer taken_so(size_t taken, bool complete)
{
    hansobrik_read_answer a;
    memset(&a, 0, sizeof a);
    a.taken = taken;
    a.complete = complete;
    return a;
}
static inline hansobrik_read_answer to_line(struct inside in, BYTES, uint8_t *o)
{
    bool more = true;
    while (more && in.position < LINE_BITS) {
        if (in.position % 8 == 0)
            whole_bytes(&in, p, c, o);
        more = in.position < LINE_BITS && one_byte(&in, p, c, o);
    }
    hansobrik_read_answer a = taken_so(in.taken, more);
    if (more) {
        a.state.unread_count = (uint8_t)in.left;
        a.state.unread = (uint8_t)(IF(181) /* the first bits, not the last */ ? in.byte >> (8 - in.left)
                                                                             : in.byte & ((1 << in.left) - 1));
        return a;
    }
    a.state.in_line = 1;
    a.state.position = in.position;
    a.state.register_ = in.r;
    a.state.waiting = in.waiting;
    a.state.waiting_count = (uint8_t)(in.position % 8);
    return a;
}

/* Whether no window that ends in the next byte can count, by the 63 bits before it. */
static inline bool none_ends(uint8_t k, uint64_t w)
{
    uint64_t odd = UINT64_C(0x155400007FEAFF), even = UINT64_C(0x0AAA00003FF57F);
    if (IF(184) /* a bit that a tail ending at bit 7 has otherwise */)
        odd |= UINT64_C(1) << 8;
    if (IF(185) /* a bit that one ending at bit 8 has otherwise */)
        even |= UINT64_C(1) << 7;
    if (k == 0 || IF(183) /* seven ones at every setting */)
        return IF(182) /* eight ones */ ? (w & 0xFF) != 0xFF : (w & 0x7F) != 0x7F;
    int most = IF(186) /* fewer wrong bits than the setting */ ? k - 1 : k;
    return apart(w & odd, TAIL >> 1 & odd) > most &&
           (IF(187) /* odd ends alone are looked at */ || apart(w & even, TAIL >> 2 & even) > most);
}
static inline hansobrik_read_answer sought(READING)
{
    uint64_t w = s.search;
    unsigned count = s.search_count, left = s.unread_count, below = IF(188) /* 56 bits and a byte are 64 */ ? 57 : 56;
    uint8_t byte = s.unread;
    size_t taken = 0;
    (void)f;
    (void)d;
    if (IF(189) /* whole bytes while fewer than 63 are remembered */)
        below = 63;
    for (;;) {
        while (left > 0) {
            left--;
            w = w << 1 | (byte >> left & 1);
            if (count == 63 && apart(w, TAIL) <= k)
                return to_line((struct inside){0, 0x7FFF, 0, taken, left, byte}, p, c, o);
            count += count < 63;
            w &= IF(190) /* 64 bits are remembered */ ? UINT64_MAX : UINT64_MAX >> 1;
        }
        if (taken == c)
            break;
        byte = p[taken++];
        if (count < below || (count == 63 && none_ends(k, w))) {
            w = (w << 8 | byte) & UINT64_MAX >> 1;
            count = count < 55 ? count + 8 : 63;
        } else {
            left = 8;
        }
    }
    hansobrik_read_answer a = taken_so(c, false);
    a.state.search = w;
    a.state.search_count = (uint8_t)count;
    return a;
}

/* The reader; an empty piece is the library's too. */
static hansobrik_read_answer wire_read(READING)
{
    hansobrik_read_answer a = hansobrik_read(f, k, s, p, 0, o, d);
    if (a.refused || c == 0)
        return a;
    if (!s.in_line)
        return sought(f, k, s, p, c, o, d);
    if (IF(175) /* bits that wait are lost */)
        s.waiting = 0;
    return to_line((struct inside){s.position, s.register_, s.waiting, 0, 0, 0}, p, c, o);
}

/* SYNC, and a line: bytes of which a complement makes zeros, the line, zeros; and the scrambling bits over them. */
static inline void sync_bytes(uint8_t f, uint8_t *o, size_t count)
{
    uint16_t before = f == HANSOBRIK_HIRID && !IF(191) /* the register of format 1 */ ? 0x61DF : 0x339F;
    for (size_t i = 0; i < count; i++)
        o[i] = IF(195) /* SYNC is complemented */ ? 0x00 : turned(i);
    mixed(o, count, 0, before);
}
static hansobrik_count_answer wire_sync(uint8_t f, uint8_t *o, size_t d)
{
    hansobrik_count_answer a = hansobrik_put_sync(f, o, d);
    size_t words = (a.count + 7) / 8 * 8;
    if (!a.refused)
        sync_bytes(f, o, IF(194) /* whole words, where there is room */ && words <= d ? words : a.count);
    return a;
}
static hansobrik_count_answer wire_line(uint8_t f, BYTES, uint8_t *o, size_t d)
{
    hansobrik_count_answer a = hansobrik_write_line(f, p, c, o, d);
    size_t sync = f == HANSOBRIK_HIRID ? 2500 : 1250, line = HANSOBRIK_LINE_BYTES;
    if (a.refused)
        return a;
    sync_bytes(f, o, sync);
    memcpy(o + sync, p, line);
    memset(o + sync + line, 0, a.count - sync - line);
    size_t all = a.count - sync;
    if (IF(193) /* what does not fill a word stays plain */)
        all -= all % 8;
    if (IF(192) /* the dummy is scrambled from fifteen ones on */) {
        mixed(o + sync + line, all - line, line, 0x7FFF);
        all = line;
    }
    mixed(o + sync, all, 0, 0x7FFF);
    return a;
}

#if FAULT == 0 /* the reader with the search of near_tail beside it, which must answer the same */
static bool same_state(hansobrik_state a, hansobrik_state b)
{
    return a.position == b.position && a.search == b.search && a.register_ == b.register_ && a.in_line == b.in_line &&
           a.search_count == b.search_count && a.unread == b.unread && a.unread_count == b.unread_count &&
           a.waiting == b.waiting && a.waiting_count == b.waiting_count;
}
static hansobrik_read_answer both_read(READING)
{
    static uint8_t copy[1 << 17];
    size_t room = d < sizeof copy ? d : sizeof copy;
    if (room > 0)
        memcpy(copy, o, room);
    hansobrik_read_answer a = wire_read(f, k, s, p, c, o, d), b = hansobrik_read(f, k, s, p, c, copy, room);
    if (a.taken != b.taken || !same_state(a.state, b.state) || (room > 0 && memcmp(copy, o, room) != 0))
        a.taken++;
    return a;
}
#undef hansobrik_read
#define hansobrik_read both_read
#else
#define hansobrik_read wire_read
#endif
#define hansobrik_put_sync wire_sync
#define hansobrik_write_line wire_line
#endif
