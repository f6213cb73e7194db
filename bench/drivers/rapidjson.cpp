// Times rapidjson's SchemaValidator, as timing.py describes. It has no call for all errors.
#include "timing.hpp"
#include <rapidjson/reader.h>
#include <rapidjson/schema.h>
#include <rapidjson/stringbuffer.h>

static Row row(const rapidjson::Document &schema, const std::vector<rapidjson::Document> &instances) {
    rapidjson::SchemaDocument compiled(schema);
    rapidjson::SchemaValidator validator(compiled);
    auto is_valid = [&](std::size_t place) {
        validator.Reset();
        return instances[place].Accept(validator);
    };
    // the first error: the keyword and both locations
    auto first = [&](std::size_t place) {
        if (is_valid(place)) return std::size_t(0);
        rapidjson::StringBuffer text;
        validator.GetInvalidSchemaPointer().StringifyUriFragment(text);
        validator.GetInvalidDocumentPointer().StringifyUriFragment(text);
        return text.GetSize() + *validator.GetInvalidSchemaKeyword();
    };
    bool answer = is_valid(0);
    double compile = fastest(1, [&](std::size_t) { rapidjson::SchemaDocument one(schema); });
    return Row{answer, {compile, fastest(COPIES, is_valid), fastest(COPIES, first), -1}};
}

// The reader gives the events of a text to the validator, and no values are made.
static TextRow of_text(const rapidjson::Document &schema, const std::string &text, std::size_t count) {
    rapidjson::SchemaDocument compiled(schema);
    rapidjson::SchemaValidator validator(compiled);
    rapidjson::Reader reader;
    return text_row(count, [&] {
        validator.Reset();
        rapidjson::StringStream stream(text.c_str());
        reader.Parse(stream, validator);
        return validator.IsValid();
    });
}

int main(int words, char **word) { return answer_lines(words, word, row, of_text); }
