/* Numbers of 128 bits, in two halves: compilers make better code of these than of their own such numbers. */
typedef struct pc_u128 {
    uint64_t low;
    uint64_t high;
} pc_u128;

static inline pc_u128 pc_u128_of(uint64_t low, uint64_t high) {
    pc_u128 a;
    a.low = low;
    a.high = high;
    return a;
}

static inline uint64_t pc_u128_low(pc_u128 a) { return a.low; }

static inline pc_u128 pc_u128_add(pc_u128 a, pc_u128 b) {
    uint64_t low = a.low + b.low;
    return pc_u128_of(low, a.high + b.high + (low < a.low ? 1u : 0u));
}

static inline pc_u128 pc_u128_sub(pc_u128 a, pc_u128 b) {
    return pc_u128_of(a.low - b.low, a.high - b.high - (a.low < b.low ? 1u : 0u));
}

static inline pc_u128 pc_u128_and(pc_u128 a, pc_u128 b) { return pc_u128_of(a.low & b.low, a.high & b.high); }

static inline pc_u128 pc_u128_or(pc_u128 a, pc_u128 b) { return pc_u128_of(a.low | b.low, a.high | b.high); }

static inline pc_u128 pc_u128_xor(pc_u128 a, pc_u128 b) { return pc_u128_of(a.low ^ b.low, a.high ^ b.high); }

static inline pc_u128 pc_u128_not(pc_u128 a) { return pc_u128_of(~a.low, ~a.high); }

static inline pc_u128 pc_u128_shl(pc_u128 a, unsigned n) {
    if (n == 0u) {
        return a;
    }
    return n < 64u ? pc_u128_of(a.low << n, (a.high << n) | (a.low >> (64u - n))) : pc_u128_of(0u, a.low << (n - 64u));
}

static inline pc_u128 pc_u128_shr(pc_u128 a, unsigned n) {
    if (n == 0u) {
        return a;
    }
    return n < 64u ? pc_u128_of((a.low >> n) | (a.high << (64u - n)), a.high >> n) : pc_u128_of(a.high >> (n - 64u), 0u);
}

static inline bool pc_u128_eq(pc_u128 a, pc_u128 b) { return a.low == b.low && a.high == b.high; }

static inline bool pc_u128_lt(pc_u128 a, pc_u128 b) { return a.high < b.high || (a.high == b.high && a.low < b.low); }

/* The product of two numbers of 64 bits, by those of their halves. */
static inline pc_u128 pc_u128_product(uint64_t a, uint64_t b) {
    uint64_t a0 = a & 0xffffffffu, a1 = a >> 32, b0 = b & 0xffffffffu, b1 = b >> 32;
    uint64_t low = a0 * b0;
    uint64_t middle = a1 * b0 + (low >> 32);
    uint64_t other = a0 * b1 + (middle & 0xffffffffu);
    return pc_u128_of((other << 32) | (low & 0xffffffffu), a1 * b1 + (middle >> 32) + (other >> 32));
}

static inline pc_u128 pc_u128_mul(pc_u128 a, pc_u128 b) {
    pc_u128 product = pc_u128_product(a.low, b.low);
    product.high += a.low * b.high + a.high * b.low;
    return product;
}

/* The quotient, and where `rest` says so the remainder: bit by bit, from the highest. */
static inline pc_u128 pc_u128_divide(pc_u128 a, pc_u128 b, bool rest) {
    pc_u128 quotient = pc_u128_of(0u, 0u), left = quotient;
    for (unsigned i = 128; i-- > 0u;) {
        bool out = left.high >> 63 != 0u;
        left = pc_u128_shl(left, 1);
        left.low |= pc_u128_shr(a, i).low & 1u;
        quotient = pc_u128_shl(quotient, 1);
        if (out || !pc_u128_lt(left, b)) {
            left = pc_u128_sub(left, b);
            quotient.low |= 1u;
        }
    }
    return rest ? left : quotient;
}

static inline pc_u128 pc_u128_div(pc_u128 a, pc_u128 b) { return pc_u128_divide(a, b, false); }

static inline pc_u128 pc_u128_rem(pc_u128 a, pc_u128 b) { return pc_u128_divide(a, b, true); }

static inline bool pc_u128_ne(pc_u128 a, pc_u128 b) { return !pc_u128_eq(a, b); }

static inline bool pc_u128_le(pc_u128 a, pc_u128 b) { return !pc_u128_lt(b, a); }

/* The number whose place among unsigned numbers is that of `a` among signed ones. */
static inline pc_u128 pc_u128_flip(pc_u128 a) { return pc_u128_xor(a, pc_u128_of(0u, UINT64_C(0x8000000000000000))); }

static inline bool pc_u128_negative(pc_u128 a) { return a.high >> 63 != 0u; }

static inline pc_u128 pc_u128_sar(pc_u128 a, unsigned n) {
    return pc_u128_negative(a) ? pc_u128_not(pc_u128_shr(pc_u128_not(a), n)) : pc_u128_shr(a, n);
}

static inline pc_u128 pc_u128_neg(pc_u128 a) { return pc_u128_sub(pc_u128_of(0u, 0u), a); }

static inline pc_u128 pc_u128_abs(pc_u128 a) { return pc_u128_negative(a) ? pc_u128_neg(a) : a; }

static inline pc_u128 pc_u128_sdiv(pc_u128 a, pc_u128 b) {
    pc_u128 quotient = pc_u128_div(pc_u128_abs(a), pc_u128_abs(b));
    return pc_u128_negative(a) != pc_u128_negative(b) ? pc_u128_neg(quotient) : quotient;
}

static inline pc_u128 pc_u128_srem(pc_u128 a, pc_u128 b) {
    pc_u128 rest = pc_u128_rem(pc_u128_abs(a), pc_u128_abs(b));
    return pc_u128_negative(a) ? pc_u128_neg(rest) : rest;
}

/* Wider numbers with the same sign, which is that of two's complement. */
static inline uint16_t pc_sext8_16(uint8_t a) { return (uint16_t)((a ^ 0x80u) - 0x80u); }

static inline uint32_t pc_sext8_32(uint8_t a) { return (a ^ (uint32_t)0x80u) - 0x80u; }

static inline uint64_t pc_sext8_64(uint8_t a) { return (a ^ (uint64_t)0x80u) - 0x80u; }

static inline uint32_t pc_sext16_32(uint16_t a) { return (a ^ (uint32_t)0x8000u) - 0x8000u; }

static inline uint64_t pc_sext16_64(uint16_t a) { return (a ^ (uint64_t)0x8000u) - 0x8000u; }

static inline uint64_t pc_sext32_64(uint32_t a) { return (a ^ (uint64_t)0x80000000u) - 0x80000000u; }

static inline pc_u128 pc_sext64_128(uint64_t a) { return pc_u128_of(a, a >> 63 != 0u ? UINT64_MAX : 0u); }

static inline pc_u128 pc_sext32_128(uint32_t a) { return pc_sext64_128(pc_sext32_64(a)); }

static inline pc_u128 pc_sext16_128(uint16_t a) { return pc_sext64_128(pc_sext16_64(a)); }

static inline pc_u128 pc_sext8_128(uint8_t a) { return pc_sext64_128(pc_sext8_64(a)); }

/* Shifts to the right that keep the sign. */
static inline uint64_t pc_sar64(uint64_t a, unsigned n) { return a >> 63 != 0u ? ~(~a >> n) : a >> n; }

static inline uint32_t pc_sar32(uint32_t a, unsigned n) { return a >> 31 != 0u ? ~(~a >> n) : a >> n; }

static inline uint16_t pc_sar16(uint16_t a, unsigned n) { return (uint16_t)pc_sar32(pc_sext16_32(a), n); }

static inline uint8_t pc_sar8(uint8_t a, unsigned n) { return (uint8_t)pc_sar32(pc_sext8_32(a), n); }

/* Quotients and remainders of signed numbers, rounded towards zero. */
static inline uint64_t pc_abs64(uint64_t a) { return a >> 63 != 0u ? 0u - a : a; }

static inline uint64_t pc_sdiv64(uint64_t a, uint64_t b) {
    uint64_t quotient = pc_abs64(a) / pc_abs64(b);
    return (a ^ b) >> 63 != 0u ? 0u - quotient : quotient;
}

static inline uint64_t pc_srem64(uint64_t a, uint64_t b) {
    uint64_t rest = pc_abs64(a) % pc_abs64(b);
    return a >> 63 != 0u ? 0u - rest : rest;
}

/* The number of ones. */
static inline uint32_t pc_count_ones64(uint64_t a) {
    uint32_t n = 0;
    for (; a != 0u; a &= a - 1u) {
        n++;
    }
    return n;
}

static inline uint32_t pc_count_ones32(uint32_t a) { return pc_count_ones64(a); }

static inline uint32_t pc_count_ones16(uint16_t a) { return pc_count_ones64(a); }

static inline uint32_t pc_count_ones8(uint8_t a) { return pc_count_ones64(a); }

static inline uint32_t pc_count_ones128(pc_u128 a) { return pc_count_ones64(a.low) + pc_count_ones64(a.high); }

/* The number of zeros below the lowest one, which is the width where there is none. */
static inline uint32_t pc_trailing_zeros64(uint64_t a) {
#ifdef __GNUC__
    return a != 0u ? (uint32_t)__builtin_ctzll(a) : 64u;
#else
    uint32_t n = 0;
    for (; n < 64u && (a >> n & 1u) == 0u; n++) {
    }
    return n;
#endif
}

static inline uint32_t pc_trailing_zeros32(uint32_t a) { return a != 0u ? pc_trailing_zeros64(a) : 32u; }

static inline uint32_t pc_trailing_zeros16(uint16_t a) { return a != 0u ? pc_trailing_zeros64(a) : 16u; }

static inline uint32_t pc_trailing_zeros8(uint8_t a) { return a != 0u ? pc_trailing_zeros64(a) : 8u; }

static inline uint32_t pc_trailing_zeros128(pc_u128 a) {
    return a.low != 0u ? pc_trailing_zeros64(a.low) : 64u + pc_trailing_zeros64(a.high);
}

/* The number of zeros above the highest one, which is the width where there is none. */
static inline uint32_t pc_leading_zeros64(uint64_t a) {
    uint32_t n = 64;
    for (; a != 0u; a >>= 1) {
        n--;
    }
    return n;
}

static inline uint32_t pc_leading_zeros32(uint32_t a) { return pc_leading_zeros64(a) - 32u; }

static inline uint32_t pc_leading_zeros16(uint16_t a) { return pc_leading_zeros64(a) - 48u; }

static inline uint32_t pc_leading_zeros8(uint8_t a) { return pc_leading_zeros64(a) - 56u; }

static inline uint32_t pc_leading_zeros128(pc_u128 a) {
    return a.high != 0u ? pc_leading_zeros64(a.high) : 64u + pc_leading_zeros64(a.low);
}

/* Eight bytes as a number, the lowest first. */
static inline uint64_t pc_word(const uint8_t *at) {
    return (uint64_t)at[0] | (uint64_t)at[1] << 8 | (uint64_t)at[2] << 16 | (uint64_t)at[3] << 24 | (uint64_t)at[4] << 32 |
           (uint64_t)at[5] << 40 | (uint64_t)at[6] << 48 | (uint64_t)at[7] << 56;
}

/* Which of some bytes, in a multiple of eight up to 64, equal one: bit i stands for at[i]. The first loop only finds whether any does, in
 * a form that compilers vectorize. */
static inline uint64_t pc_equal_bytes(const uint8_t *at, uint8_t byte, unsigned count) {
    const uint64_t ones = UINT64_C(0x0101010101010101), low = UINT64_C(0x7f7f7f7f7f7f7f7f);
    uint64_t any = 0, found = 0;
    for (unsigned i = 0; i < count; i += 8u) {
        uint64_t differ;
        memcpy(&differ, at + i, sizeof differ);
        differ ^= byte * ones;
        any |= (differ - ones) & ~differ;
    }
    if ((any & ~low) == 0u) {
        return 0u;
    }
    for (unsigned i = 0; i < count; i += 8u) {
        uint64_t differ = pc_word(at + i) ^ (byte * ones);
        uint64_t zeros = ~(((differ & low) + low) | differ | low) >> 7;
        found |= (zeros * UINT64_C(0x0102040810204080) >> 56) << i;
    }
    return found;
}

/* Copies bytes one after the other, from the first on: at once where that is the same. */
static inline void pc_copy_bytes(uint8_t *to, const uint8_t *from, uint64_t count) {
    if ((uintptr_t)to - (uintptr_t)from >= count) {
        memmove(to, from, (size_t)count);
    } else {
        for (uint64_t i = 0; i < count; i++) {
            to[i] = from[i];
        }
    }
}

/* A size as C has it: at most the greatest. */
static inline size_t pc_size(uint64_t n) {
#if SIZE_MAX < UINT64_MAX
    return n > SIZE_MAX ? SIZE_MAX : (size_t)n;
#else
    return n;
#endif
}
