/* A simulated processor answers the request that reads N7:0. Built and run by `./slc lib`, or by hand:
 *     cc -Iinclude examples/first_answer.c target/staticlib/libslc_link.a -o first_answer */
#include <slc_device.h>
#include <stdio.h>

/* the processor with its memories: too much for some stacks */
static slc_device device;

static void print(const char *name, const uint8_t *bytes, size_t length)
{
    printf("%-8s", name);
    for (size_t i = 0; i < length; i++)
        printf(" %02X", bytes[i]);
    printf("\n");
}

static int refused(const char *call, uint8_t number)
{
    fprintf(stderr, "%s was refused with %d\n", call, number);
    return 1;
}

int main(void)
{
    /* the cupping room's shares in N7, purchasing's caps in N9; no datalog */
    static const uint32_t files[][3] = {{7, SLC_TYPE_N, 10}, {9, SLC_TYPE_N, 10}};
    uint8_t number = slc_device_new(&device, files, 2, "1747-L552", NULL, 0, 0);
    if (number)
        return refused("slc_device_new", number);
    slc_value share = {SLC_WHOLE, 15, 0, 0};
    number = slc_device_set(&device, 7, SLC_TYPE_N, 0, share, NULL, 0);
    if (number)
        return refused("slc_device_set", number);

    uint8_t message[SLC_REQUEST_ROOM];
    const char *tag = "N7:0";
    slc_request request = slc_read_request((const uint8_t *)tag, strlen(tag), SLC_READING_NEW, slc_default_requestor(), 0x1234, message, sizeof message);
    if (request.address.refused)
        return refused("slc_read_request", request.address.refused);
    print("request", message, request.length);

    uint8_t reply[SLC_REPLY_ROOM];
    slc_written answer = slc_device_pccc(&device, message + SLC_COMMAND_AT, request.length - SLC_COMMAND_AT, reply, sizeof reply);
    if (answer.refused)
        return refused("slc_device_pccc", answer.refused);
    print("reply", reply, answer.length);
    printf("%s has %d\n", tag, (int16_t)(reply[SLC_DATA_AT] | reply[SLC_DATA_AT + 1] << 8));
    return 0;
}
