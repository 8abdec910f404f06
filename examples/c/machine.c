/* A machine of a stack and eight instructions, of which a switch chooses one by a table. */

enum { PUSH, ADD, SUB, SHL, AND, DUP, LOOP, END };

static const unsigned char PROGRAM[] = {PUSH, 1, PUSH, 6, SHL, DUP, PUSH, 9, ADD, PUSH, 63, AND, SUB, LOOP, END};
static unsigned stack[8];

static __attribute__((noinline)) unsigned run(const unsigned char *at, unsigned turns)
{
    unsigned depth = 0;
    for (;;) {
        unsigned top = depth > 0 ? stack[depth - 1] : 0, below = depth > 1 ? stack[depth - 2] : 0;
        switch (*at++) {
        case PUSH: stack[depth++] = *at++; break;
        case ADD: stack[--depth - 1] = below + top; break;
        case SUB: stack[--depth - 1] = below - top; break;
        case SHL: stack[--depth - 1] = below << (top & 31); break;
        case AND: stack[--depth - 1] = below & top; break;
        case DUP: stack[depth++] = top; break;
        case LOOP:
            if (--turns > 0) {
                depth = 0;
                at = PROGRAM;
            }
            break;
        case END: return top;
        default: return 0xffffffff;
        }
    }
}

unsigned interpreted(unsigned turns)
{
    return run(PROGRAM, turns);
}
