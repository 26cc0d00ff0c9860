// The program of the stream's yardsticks, for a context of 128 bytes: if the first byte is odd, it reserves a record of 24 bytes, copies the three
// words after the first word of the context to it, and submits it. It returns 1 for a record, 2 if the ring has no room, and otherwise 0.
// RING is the instruction, or the two, that load the ring into r1; RESERVE and SUBMIT are the numbers of the helpers.
#define CONTEXT 128
#define RECORD 24

#define LOAD(size, to, from, at) {.code = 0x61 | (size), .dst_reg = to, .src_reg = from, .off = at}
#define BYTE 0x10
#define WORD 0x18

#define FILTER(RING, RESERVE, SUBMIT)                                                  \
    LOAD(BYTE, 2, 1, 0),                                 /* r2 = first byte */         \
    {.code = 0x57, .dst_reg = 2, .imm = 1},              /* r2 &= 1 */                 \
    {.code = 0xb7, .dst_reg = 0, .imm = 0},              /* r0 = 0 */                  \
    {.code = 0x55, .dst_reg = 2, .off = 1, .imm = 0},    /* if r2 != 0 goto +1 */      \
    {.code = 0x95},                                      /* exit */                    \
    {.code = 0xbf, .dst_reg = 6, .src_reg = 1},          /* r6 = r1: the context */    \
    RING,                                                /* r1 = the ring */           \
    {.code = 0xb7, .dst_reg = 2, .imm = RECORD},         /* r2 = 24: the size */       \
    {.code = 0xb7, .dst_reg = 3, .imm = 0},              /* r3 = 0: the flags */       \
    {.code = 0x85, .imm = RESERVE},                      /* call reserve */            \
    {.code = 0x55, .dst_reg = 0, .off = 2, .imm = 0},    /* if r0 != 0 goto +2 */      \
    {.code = 0xb7, .dst_reg = 0, .imm = 2},              /* r0 = 2 */                  \
    {.code = 0x95},                                      /* exit */                    \
    LOAD(WORD, 1, 6, 8),                                 /* r1 = *(u64 *)(r6 + 8) */   \
    {.code = 0x7b, .dst_reg = 0, .src_reg = 1, .off = 0},                              \
    LOAD(WORD, 1, 6, 16),                                                              \
    {.code = 0x7b, .dst_reg = 0, .src_reg = 1, .off = 8},                              \
    LOAD(WORD, 1, 6, 24),                                                              \
    {.code = 0x7b, .dst_reg = 0, .src_reg = 1, .off = 16},                             \
    {.code = 0xbf, .dst_reg = 1, .src_reg = 0},          /* r1 = r0: the record */     \
    {.code = 0xb7, .dst_reg = 2, .imm = 0},              /* r2 = 0: the flags */       \
    {.code = 0x85, .imm = SUBMIT},                       /* call submit */             \
    {.code = 0xb7, .dst_reg = 0, .imm = 1},              /* r0 = 1 */                  \
    {.code = 0x95},                                      /* exit */
