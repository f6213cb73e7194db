// Tests include/jskw.hpp. The last line is `N passed, M failed`.
#include "jskw.hpp"

#include <cstdio>

static int passed, failed;

static void check(const char *name, bool holds) {
    holds ? ++passed : ++failed;
    if (!holds) std::printf("%s: FAILED\n", name);
}

// Whether a call throws a failure of this status and text.
template <class Call> static bool fails(uint32_t status, const std::string &text, Call call) {
    try {
        call();
    } catch (const jskw::Failure &failure) {
        std::string said = jskw_status_name(status) + (text.empty() ? text : ": " + text);
        return failure.status == status && failure.text == text && failure.what() == said;
    }
    return false;
}

int main() {
    jskw::Schema schema(R"({"required": ["name", "a\tge"], "minProperties": 2})");
    check("valid", schema.is_valid(R"({"name": "Ada", "a\tge": 36})"));
    check("invalid", !schema.is_valid(R"({"name": "Ada"})"));
    auto errors = schema.errors("{}");
    check("errors", errors.size() == 3);
    check("error", errors[2].keyword == "required" && errors[2].instance_location.empty() &&
                       errors[2].keyword_location == "/required" && errors[2].expected == R"("a\tge")" &&
                       errors[2].message == R"(has no member "a\tge")");
    check("the first error", schema.errors("{}", 1).size() == 1);
    check("no errors", schema.errors("7").empty());
    jskw::Schema items(R"({"items": {"const": "1"}})");
    check("a long text", items.errors("[\"" + std::string(9999, 'x') + "\", 1]").size() == 2);
    check("a word with a tab", items.errors(R"(["\t"])")[0].message == R"("\t" must be "1")");
    check("a tree", items.evaluate("[]").rfind(R"({"valid":true,)", 0) == 0);
    check("a place", fails(JSKW_NOT_JSON, "3\t1\t4\tword\tnot JSON: a word that is not true, false or null\n",
                           [&] { items.errors("[1,x"); }));
    check("a place of is_valid", fails(JSKW_NOT_JSON, "0\t1\t1\tearlyEnd\tnot JSON: the text ends too early\n",
                                       [&] { items.is_valid(""); }));
    check("inexact", fails(JSKW_INEXACT, "/0\t1\t1\t2\n", [&] { items.is_valid("[1e400]"); }));
    check("no schema", fails(JSKW_BAD_SCHEMA, "minimum\t/minItems\t-1 must be at least 0\t0\n",
                             [] { jskw::Schema(R"({"minItems": -1})"); }));
    check("no draft", fails(JSKW_BAD_SETTING, "", [] { jskw::Schema("true", 5); }));
    check("a setting", jskw::Schema(R"({"minItems": 1})", 7, JSKW_ALL, R"(["minItems"])").is_valid("[]"));
    jskw::Schema other = schema.share();
    schema = std::move(items);
    check("a moved schema", schema.is_valid("{}"));
    check("a shared schema", !other.is_valid("{}"));
    jskw::Schema last = std::move(other);
    check("an empty handle", fails(JSKW_NO_SCHEMA, "", [&] { other.is_valid("{}"); }));
    check("shares of an empty handle", fails(JSKW_NO_SCHEMA, "", [&] { other.share(); }));
    std::printf("%d passed, %d failed\n", passed, failed);
    return failed > 0;
}
