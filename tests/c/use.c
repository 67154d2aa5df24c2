/*
 * The calls of cavindorum.h from C. Prints the register of document 01,
 * and fails where a call gives anything else than the header says.
 */
#include "cavindorum.h"

#include <stdio.h>
#include <stdlib.h>
#include <string.h>

#define SIZE(array) (sizeof(array) / sizeof((array)[0]))

/* The register's image and picks in document 01. */
static const uint8_t image[] = {0x10, 0x80, 0x42, 0x20, 0x00, 0x14,
                                0x00, 0x00, 0x00, 0x00, 0xA0, 0x10};
static const uint8_t picks[] = {0x00, 0x00, 0x00};

/* The same net in the planners' notation. */
static const uint8_t notation[] = "0 has 0:o\n0 :: out(5)@self.nil\n";
#define NOTATION_LENGTH (SIZE(notation) - 1)

static uint8_t text[CAVINDORUM_LONGEST_REGISTER];

static void expect(int holds, const char *what) {
    if (!holds) {
        fprintf(stderr, "use: %s\n", what);
        exit(1);
    }
}

static uint8_t run(size_t image_length, uint8_t *answers, size_t length) {
    return cavindorum_run(image, image_length, picks, SIZE(picks), answers, length);
}

static void use_run(void) {
    const uint8_t performed[] = {0, 1, 7, 99};
    const uint8_t untouched[] = {99, 99, 99, 99};
    uint8_t answers[] = {99, 99, 99, 99};
    expect(run(0, answers, SIZE(answers)) == 28, "no bytes are 28");
    expect(run(SIZE(image), answers, 2) == 35, "two bytes for three answers are 35");
    expect(memcmp(answers, untouched, SIZE(answers)) == 0, "a refusal changes no answer");
    expect(run(SIZE(image), answers, SIZE(answers)) == 0, "a run is made");
    expect(memcmp(answers, performed, SIZE(answers)) == 0, "its answers are 0, 1 and 7");
    expect(cavindorum_run(image, SIZE(image), picks, 0, answers, 0) == 0, "no picks are a run");
}

/* The register's image in format 2, where its one row is for its own code. */
static void use_formats(void) {
    const uint8_t performed[] = {0, 1, 7};
    uint8_t other[SIZE(image)], answers[] = {99, 99, 99};
    memcpy(other, image, SIZE(image));
    other[0] = 0x30;
    expect(cavindorum_run(other, SIZE(other), picks, SIZE(picks), answers, SIZE(answers)) == 21,
           "there is no format 3");
    other[0] = 0x20;
    expect(cavindorum_run(other, SIZE(other), picks, SIZE(picks), answers, SIZE(answers)) == 0,
           "a run of format 2 is made");
    expect(memcmp(answers, performed, SIZE(answers)) == 0, "its answers are those of format 1");
}

static size_t written(size_t image_length, size_t length) {
    return cavindorum_register(image, image_length, picks, SIZE(picks), text, length);
}

static void use_register(void) {
    const char refused[] = "refused 28 at 0\n";
    size_t length;
    expect(written(0, SIZE(text)) == strlen(refused), "no bytes have a register");
    expect(memcmp(text, refused, strlen(refused)) == 0, "it says 28 at 0");
    expect(written(SIZE(image), 10) == 0, "ten bytes are too short");
    length = written(SIZE(image), SIZE(text));
    expect(length > 0, "there is room for every register");
    expect(fwrite(text, 1, length, stdout) == length, "it is printed");
}

/* The register's image with its first starting place past the code. */
static void use_refusal_place(void) {
    const char refused[] = "refused 24 at 27\n";
    uint8_t bad[SIZE(image)], other[100];
    size_t length;
    memcpy(bad, image, SIZE(image));
    bad[4] = 0x20;
    expect(cavindorum_refusal_place(image, 0) == 0, "no bytes go bad at 0");
    expect(cavindorum_refusal_place(image, SIZE(image)) == 0, "an accepted image has no place");
    expect(cavindorum_refusal_place(image, 4) == 27, "four bytes end in the starting place");
    expect(cavindorum_refusal_place(bad, SIZE(bad)) == 27, "the starting place is at 27");
    length = cavindorum_register(bad, SIZE(bad), picks, SIZE(picks), other, SIZE(other));
    expect(length == strlen(refused), "a refused image has a register");
    expect(memcmp(other, refused, length) == 0, "it says 24 at 27");
}

static void use_texts(void) {
    const uint8_t performed[] = {0, 1, 7};
    const char refused[] = "refused 31\n";
    uint8_t answers[] = {99, 99, 99};
    uint8_t other[1000];
    size_t length;
    expect(cavindorum_run_text(notation, 0, picks, SIZE(picks), answers, SIZE(answers)) == 31,
           "no text is 31");
    expect(cavindorum_run_text(notation, NOTATION_LENGTH, picks, SIZE(picks), answers,
                               SIZE(answers)) == 0,
           "a text's run is made");
    expect(memcmp(answers, performed, SIZE(answers)) == 0, "its answers are the image's");
    length = cavindorum_register_text(notation, NOTATION_LENGTH, picks, SIZE(picks), other,
                                      SIZE(other));
    expect(length == written(SIZE(image), SIZE(text)), "its register is as long as the image's");
    expect(memcmp(other, text, length) == 0, "and the same");
    length = cavindorum_register_text(notation, 0, picks, SIZE(picks), other, SIZE(other));
    expect(length == strlen(refused), "no text has a register");
    expect(memcmp(other, refused, length) == 0, "it says 31 and no place");
}

static void use_names(void) {
    const uint8_t site[] = {0x04, 'g', 'a', 't', 'e'};
    const uint8_t office[] = {0x02, 'n', 'o'};
    const char line[] = "node 0 1 0 gate\n";
    uint8_t named[1000];
    size_t length, plain;
    expect(cavindorum_names_fault(site, SIZE(site), office, SIZE(office)) == 0, "both lists are good");
    expect(cavindorum_names_fault(site, 3, office, SIZE(office)) == 52, "a list cut short is 52");
    plain = written(SIZE(image), SIZE(text));
    length = cavindorum_named_register(image, SIZE(image), picks, SIZE(picks), site, SIZE(site), office,
                                       SIZE(office), named, SIZE(named) - 1);
    expect(length == plain + 5, "a name and its space are written");
    named[length] = 0;
    expect(strstr((const char *)named, line) != NULL, "at the end of the node's line");
    length = cavindorum_named_register(image, SIZE(image), picks, SIZE(picks), site, 3, office,
                                       SIZE(office), named, SIZE(named));
    expect(length == plain && memcmp(named, text, plain) == 0, "with a fault no line has a name");
    length = cavindorum_named_register_text(notation, NOTATION_LENGTH, picks, SIZE(picks), site, 0, office,
                                            SIZE(office), named, SIZE(named));
    expect(length == plain + 3, "the office names what the site does not");
}

int main(void) {
    use_run();
    use_formats();
    use_texts();
    use_names();
    use_refusal_place();
    use_register();
    return 0;
}
