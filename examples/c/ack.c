/* Prints the acknowledgment that is due for a lease break notification, as `leasecheck ack` does:
   cc -o ack ack.c -lsmblease && ./ack 2c0000.. */
#include <smblease.h>
#include <stdio.h>
#include <stdlib.h>
#include <string.h>

/* The value of a hexadecimal digit in either case, or -1. */
static int digit(char c) {
    const char *digits = "0123456789abcdef", *at = strchr(digits, c >= 'A' && c <= 'F' ? c + 32 : c);
    return c != '\0' && at != NULL ? (int)(at - digits) : -1;
}

int main(int argc, char **argv) {
    if (argc != 2) return fputs("usage: ack HEX\n", stderr), 2;
    size_t length = strlen(argv[1]) / 2, written, i;
    uint8_t *bytes = malloc(length + 1), answer[SMBLEASE_ACKNOWLEDGMENT_SIZE] = {0};
    if (bytes == NULL) return fputs("fault memory\n", stderr), 1;
    for (i = 0; i < length && digit(argv[1][2 * i]) >= 0 && digit(argv[1][2 * i + 1]) >= 0; i++)
        bytes[i] = (uint8_t)(16 * digit(argv[1][2 * i]) + digit(argv[1][2 * i + 1]));
    if (i < length || strlen(argv[1]) % 2 != 0) return free(bytes), fputs("fault hex\n", stderr), 1;
    struct smblease_notification notification = {0};
    struct smblease_fault fault = smblease_read_notification(bytes, length, &notification);
    free(bytes);
    if (fault.kind != SMBLEASE_NO_FAULT) {
        char name[SMBLEASE_FAULT_NAME_MOST] = {0};
        smblease_fault_name(fault.kind, name, sizeof name);
        fprintf(stderr, "fault %u %s at %llu\n", (unsigned)fault.kind, name, (unsigned long long)fault.place);
        return 1;
    }
    struct smblease_acknowledgment due = {0};
    if (smblease_acknowledgment_due(&notification, &due)) {
        written = smblease_write_acknowledgment(&due, answer, sizeof answer);
        for (i = 0; i < written; i++) printf("%02x", answer[i]);
        puts("");
    } else {
        puts("no acknowledgment due");
    }
    if (length > SMBLEASE_NOTIFICATION_SIZE) printf("rest %zu\n", length - SMBLEASE_NOTIFICATION_SIZE);
    return fflush(stdout) == 0 ? 0 : (fputs("fault output\n", stderr), 1);
}
