/* Makes the proved library's calls for a program on a machine that is not x86-64,
 * which cannot link the library. `src/proved/bridged` runs this under the kit's
 * emulator, writes requests to it and reads its replies. There is no C library. */

typedef __UINT8_TYPE__ u8;
typedef __UINT32_TYPE__ u32;
typedef __UINT64_TYPE__ u64;
typedef __SIZE_TYPE__ size;

u64 vans_run(const u8 *code, size code_len, u8 *heap, size heap_len,
             u8 *regs, size regs_len, u32 budget);
u64 vans_read(const u8 *packet, size packet_len, u8 *numbers, size numbers_len);
u64 vans_check(const u8 *packet, size packet_len);
u64 vans_erase(const u8 *packet, size packet_len, u8 *code, size code_len);
u64 vans_desk(const u8 *packet, size packet_len, u8 *code, size code_len,
              u8 *heap, size heap_len, const u8 *blocks, size blocks_len,
              u8 *regs, size regs_len, u32 budget);

enum { RUN, READ, CHECK, ERASE, DESK };

/* The head of a request. Its buffers lie behind it, between guard bytes, those first
 * that are only read; lengths are in bytes, and starts count from the head's first
 * byte. */
struct request {
    u32 call, budget, length;
    struct {
        u32 start, length;
    } buffers[5];
};

/* The call is made on the buffers where they were read, and the reply is the whole
 * request as the call leaves it, with the answer over its first eight bytes: the
 * sender sees each byte that was written, also in guards and read-only buffers. */
static union {
    struct request request;
    u64 answer;
    u8 bytes[1 << 20];
} room __attribute__((aligned(64)));

/* Linux's numbers. */
enum { SYSTEM_READ = 0, SYSTEM_WRITE = 1, SYSTEM_EXIT = 60 };

static long system_call(long number, long first, const void *second, size third)
{
    long result;
    __asm__ volatile("syscall"
                     : "=a"(result)
                     : "a"(number), "D"(first), "S"(second), "d"(third)
                     : "rcx", "r11", "memory");
    return result;
}

static void stop(int status)
{
    for (;;)
        system_call(SYSTEM_EXIT, status, 0, 0);
}

/* Input may end between two requests and nowhere else; a request that is larger
 * than the room seems to end too early. */
static void read_request(void)
{
    size have = 0;
    while (have < sizeof room.request || have < room.request.length) {
        long more = system_call(SYSTEM_READ, 0, room.bytes + have, sizeof room - have);
        if (more <= 0)
            stop(more < 0 || have > 0);
        have += more;
    }
}

static void write_reply(size length)
{
    for (size done = 0; done < length;) {
        long more = system_call(SYSTEM_WRITE, 1, room.bytes + done, length - done);
        if (more <= 0)
            stop(1);
        done += more;
    }
}

static u8 *start_of(int buffer)
{
    return room.bytes + room.request.buffers[buffer].start;
}

static size length_of(int buffer)
{
    return room.request.buffers[buffer].length;
}

static u64 call(void)
{
    switch (room.request.call) {
    case RUN:
        return vans_run(start_of(0), length_of(0), start_of(1), length_of(1),
                        start_of(2), length_of(2), room.request.budget);
    case READ:
        return vans_read(start_of(0), length_of(0), start_of(1), length_of(1));
    case CHECK:
        return vans_check(start_of(0), length_of(0));
    case ERASE:
        return vans_erase(start_of(0), length_of(0), start_of(1), length_of(1));
    case DESK:
        return vans_desk(start_of(0), length_of(0), start_of(2), length_of(2),
                         start_of(3), length_of(3), start_of(1), length_of(1),
                         start_of(4), length_of(4), room.request.budget);
    }
    stop(1);
    return 0;
}

void serve(void)
{
    for (;;) {
        read_request();
        size length = room.request.length;
        room.answer = call();
        write_reply(length);
    }
}

/* The call leaves the stack aligned as a C function expects it. */
__asm__(".globl _start\n_start: call serve\n");

/* The library's compiler leaves these two to whoever links it. */

void *memset(void *bytes, int value, size count)
{
    u8 *at = bytes;
    while (count--)
        *at++ = value;
    return bytes;
}

void *memcpy(void *restrict to, const void *restrict from, size count)
{
    u8 *at = to;
    const u8 *next = from;
    while (count--)
        *at++ = *next++;
    return to;
}
