// The header in C++, and a call over libsmblease.so: of a text of no bytes the pointer may be null.
#include <smblease.h>

int main() {
    smblease_create_answer answer = {};
    answer.state = answer.durable = 9;
    smblease_fault fault = smblease_read_create_answer(nullptr, 0, &answer);
    return fault.kind != SMBLEASE_NO_FAULT || answer.has_lease != 0 || answer.state != 0 || answer.durable != 0;
}
