// Checks lines as lines.js does, with rapidjson: the reader gives the events of a line to the validator, and no values
// are made.
#include <rapidjson/document.h>
#include <rapidjson/reader.h>
#include <rapidjson/schema.h>

#include <cstdio>
#include <cstdlib>
#include <fstream>
#include <sstream>
#include <string>

int main(int, char **word) {
    std::stringstream text;
    text << std::ifstream(word[1]).rdbuf();
    rapidjson::Document schema;
    if (schema.Parse(text.str().c_str()).HasParseError()) return 1;
    rapidjson::SchemaDocument compiled(schema);
    rapidjson::SchemaValidator validator(compiled);
    rapidjson::Reader reader;
    std::size_t valid = 0, invalid = 0, room = 0;
    char *line = nullptr;
    for (ssize_t size; (size = getline(&line, &room, stdin)) > 0;) {
        validator.Reset();
        rapidjson::StringStream stream(line);
        reader.Parse(stream, validator);
        ++(validator.IsValid() ? valid : invalid);
    }
    std::printf("%zu %zu\n", valid, invalid);
    return 0;
}
