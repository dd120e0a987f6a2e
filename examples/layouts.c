/*
 * Layouts of a query: prints, for the last node of an expression file, the witness schema with the
 * number of its memberships, the output record under it, its instantiation, and the schema that the
 * instantiation gives back; or that no schema in which every relation has an attribute types it.
 * Bytes are hexadecimal. The file is named on the command line; without a name it is examples/e1.
 * gcc -std=c99 -Iinclude examples/layouts.c target/staticlib/libtype_formula.a -o target/layouts
 */
#include <stdio.h>

#include "type_formula.h"

static uint8_t work[TYPE_FORMULA_WORK_SIZE];

/* An expression file. One byte more than the longest: a longer file is refused all the same. */
struct file {
    uint8_t bytes[TYPE_FORMULA_LONGEST_FILE + 1];
    size_t size;
};

static int read_file(const char *name, struct file *file)
{
    FILE *stream = fopen(name, "rb");
    if (stream == NULL)
        return 1;
    file->size = fread(file->bytes, 1, sizeof file->bytes, stream);
    int failed = ferror(stream);
    fclose(stream);
    return failed;
}

static void print_bytes(const char *name, const uint8_t *bytes, size_t size)
{
    printf("%s:", name);
    for (size_t i = 0; i < size; i++)
        printf(" %02x", bytes[i]);
    printf("\n");
}

static int refused(const char *operation, uint8_t number)
{
    printf("%s refused %d: %s\n", operation, number, type_formula_refusal_text(number));
    return 1;
}

/* From a schema that types the node to its instantiation and back. */
static int print_round_trip(const struct file *file, size_t node, const uint8_t *schema, size_t size)
{
    static uint8_t instantiation[TYPE_FORMULA_INSTANTIATION_SIZE];
    static uint8_t image[TYPE_FORMULA_SCHEMA_SIZE], out[TYPE_FORMULA_OUTPUT_SIZE];
    size_t length, image_size, out_size;
    uint8_t answer = type_formula_recover(file->bytes, file->size, node, schema, size, work, sizeof work,
                                          instantiation, sizeof instantiation, &length);
    if (answer != 0)
        return refused("Recover", answer);
    print_bytes("instantiation", instantiation, length);
    answer = type_formula_apply(file->bytes, file->size, node, instantiation, length, work, sizeof work,
                                image, sizeof image, out, sizeof out, &image_size, &out_size);
    if (answer != 0)
        return refused("Apply", answer);
    print_bytes("schema", image, image_size);
    return 0;
}

static int print_layouts(const struct file *file, size_t node)
{
    static uint8_t schema[TYPE_FORMULA_SCHEMA_SIZE], out[TYPE_FORMULA_OUTPUT_SIZE];
    size_t value, length;
    uint8_t memberships;
    uint8_t answer = type_formula_verdict(file->bytes, file->size, node, work, sizeof work, schema,
                                          sizeof schema, &value, &memberships);
    if (answer == TYPE_FORMULA_UNTYPABLE) {
        printf("node %zu untypable, attribute %zu\n", node, value);
        return 0;
    }
    if (answer != 0)
        return refused("Verdict", answer);
    printf("node %zu typable, memberships %d\n", node, memberships);
    print_bytes("witness", schema, value);
    answer = type_formula_typing(file->bytes, file->size, node, schema, value, out, sizeof out, &length);
    if (answer != 0)
        return refused("Typing", answer);
    print_bytes("output", out, length);
    return print_round_trip(file, node, schema, value);
}

int main(int count, char **arguments)
{
    const char *name = count > 1 ? arguments[1] : "examples/e1";
    struct file file;
    uint8_t relations, nodes;
    if (read_file(name, &file) != 0)
        return fprintf(stderr, "%s cannot be read\n", name), 2;
    uint8_t answer = type_formula_accept(file.bytes, file.size, &relations, &nodes);
    return answer != 0 ? refused("file", answer) : print_layouts(&file, nodes - 1u);
}
