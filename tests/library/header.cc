// header FILE: the header in C++: lists the objects of a DSDT by the walk over children, and prints what its functions name.
#include "acpins.h"
#include <cstdio>
#include <cstring>
#include <iterator>
#include <fstream>
#include <vector>

static std::vector<acpins_object> objects;
static std::vector<uint8_t> text;

static void list(uint64_t place) {
    const acpins_object &object = objects[place];
    std::fwrite(&text[object.line], 1, object.line_length, stdout);
    for (uint64_t it = acpins_first_child(objects.data(), place); it != ACPINS_NONE; it = acpins_next_sibling(objects.data(), it))
        list(it);
}

int main(int, char **words) {
    std::ifstream file(words[1], std::ios::binary);
    std::vector<char> bytes((std::istreambuf_iterator<char>(file)), std::istreambuf_iterator<char>());
    acpins_table table = {reinterpret_cast<const uint8_t *>(bytes.data()), bytes.size()};
    acpins_arrays arrays = {};
    acpins_outcome outcome = {};
    if (acpins_load(&table, 1, 1024, &arrays, &outcome) != ACPINS_NO_ROOM) return 1;
    std::vector<uint64_t> targets(outcome.targets);
    std::vector<acpins_part> parts(outcome.parts);
    std::vector<uint8_t> data(outcome.bytes);
    objects.resize(outcome.objects);
    text.resize(outcome.text);
    arrays.objects = objects.data(), arrays.object_room = objects.size();
    arrays.targets = targets.data(), arrays.target_room = targets.size();
    arrays.text = text.data(), arrays.text_room = text.size();
    arrays.parts = parts.data(), arrays.part_room = parts.size();
    arrays.bytes = data.data(), arrays.byte_room = data.size();
    if (acpins_load(&table, 1, 1024, &arrays, &outcome) != ACPINS_OK) return 1;
    list(0);
    const uint8_t *path = reinterpret_cast<const uint8_t *>("\\_SB");
    uint64_t place = acpins_find(objects.data(), objects.size(), text.data(), path, 4);
    bool is_right = place != ACPINS_NONE && acpins_parent(objects.data(), place) == 0 &&
                    std::strcmp(acpins_kind_name(&objects[place]), "Scope") == 0 &&
                    std::strcmp(acpins_reason_name(0x420D), "B13 BadPlace") == 0 &&
                    std::strcmp(acpins_reason_name(0x420E), "?") == 0 && std::strcmp(acpins_reason_name(0x4B00), "?") == 0 &&
                    std::strcmp(acpins_reason_name(0x5305), "S5 UnsureCount") == 0 &&
                    std::strcmp(acpins_space_name(ACPINS_PCC), "PCC") == 0 && std::strcmp(acpins_space_name(0x7F), "?") == 0 &&
                    std::strcmp(acpins_space_name(0xFF), "OEM") == 0;
    return is_right ? 0 : 1;
}
