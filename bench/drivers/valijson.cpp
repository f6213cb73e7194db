// Times valijson over rapidjson's values, as timing.py describes. It has no call for the first error.
#include "timing.hpp"
#include <valijson/adapters/rapidjson_adapter.hpp>
#include <valijson/schema.hpp>
#include <valijson/schema_parser.hpp>
#include <valijson/validation_results.hpp>
#include <valijson/validator.hpp>

using Adapter = valijson::adapters::RapidJsonAdapter;

static Row row(const rapidjson::Document &schema, const std::vector<rapidjson::Document> &instances) {
    valijson::SchemaParser parser(valijson::SchemaParser::kDraft7);
    valijson::Schema compiled;
    parser.populateSchema(Adapter(schema), compiled);
    valijson::Validator validator;
    auto is_valid = [&](std::size_t place) {
        return validator.validate(compiled, Adapter(instances[place]), nullptr);
    };
    auto all = [&](std::size_t place) {
        valijson::ValidationResults results;
        return validator.validate(compiled, Adapter(instances[place]), &results);
    };
    bool answer = is_valid(0);
    double compile = fastest(1, [&](std::size_t) {
        valijson::Schema one;
        parser.populateSchema(Adapter(schema), one);
    });
    return Row{answer, {compile, fastest(COPIES, is_valid), -1, fastest(COPIES, all)}};
}

static TextRow of_text(const rapidjson::Document &schema, const std::string &text, std::size_t count) {
    valijson::SchemaParser parser(valijson::SchemaParser::kDraft7);
    valijson::Schema compiled;
    parser.populateSchema(Adapter(schema), compiled);
    valijson::Validator validator;
    return text_row(count, [&] {
        rapidjson::Document instance = parsed(text);
        return validator.validate(compiled, Adapter(instance), nullptr);
    });
}

int main(int words, char **word) { return answer_lines(words, word, row, of_text); }
