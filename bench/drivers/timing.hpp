// Times calls as timing.js does, and answers lines as timing.py describes.
#pragma once
#include <rapidjson/document.h>

#include <algorithm>
#include <chrono>
#include <cstdio>
#include <functional>
#include <iostream>
#include <string>
#include <vector>

constexpr std::size_t COPIES = 4;
constexpr double SPAN = 1e6, LIMIT = 3e8;

template <class Call> double batch(std::size_t rounds, std::size_t calls, const Call &call) {
    auto start = std::chrono::steady_clock::now();
    for (std::size_t round = 0; round < rounds; ++round)
        for (std::size_t place = 0; place < calls; ++place) call(place);
    return std::chrono::duration<double, std::nano>(std::chrono::steady_clock::now() - start).count();
}

template <class Call> double fastest(std::size_t calls, const Call &call) {
    std::size_t rounds = 1;
    double best = batch(rounds, calls, call);
    while (best < SPAN) best = batch(rounds *= 2, calls, call);
    double taken = best;
    for (int count = 1; count < 30 && taken < LIMIT; ++count) {
        double time = batch(rounds, calls, call);
        taken += time;
        best = std::min(best, time);
    }
    return best / (rounds * calls);
}

inline rapidjson::Document parsed(const std::string &text) {
    rapidjson::Document document;
    if (document.Parse(text.c_str()).HasParseError()) std::exit(1);
    return document;
}

// What a validator says of a schema and instances: the answer, and the times of a compile, `is_valid`, the first error
// and all errors; a time below 0 stands for a call that it lacks.
struct Row {
    bool answer;
    double times[4];
};

// What a validator says of a text, and the mean time of a call that parses it.
struct TextRow {
    bool answer;
    double time;
};

template <class Call> TextRow text_row(std::size_t count, const Call &call) {
    bool answer = call();
    return {answer, batch(count, 1, [&](std::size_t) { return call(); }) / count};
}

template <class RowOf, class TextOf> int answer_lines(int words, char **word, const RowOf &row_of, const TextOf &text_of) {
    for (std::string line; std::getline(std::cin, line);) {
        std::size_t one = line.find('\t'), two = line.find('\t', one + 1);
        std::string name = line.substr(0, one), text = line.substr(two + 1);
        rapidjson::Document schema = parsed(line.substr(one + 1, two - one - 1));
        if (words > 1) {
            TextRow row = text_of(schema, text, std::stoul(word[1]));
            std::printf("%s\t%s\t%.1f\n", name.c_str(), row.answer ? "valid" : "invalid", row.time);
            continue;
        }
        std::vector<rapidjson::Document> instances;
        for (std::size_t place = 0; place < COPIES; ++place) instances.push_back(parsed(text));
        Row row = row_of(schema, instances);
        std::printf("%s\t%s", name.c_str(), row.answer ? "valid" : "invalid");
        for (double time : row.times) time < 0 ? std::printf("\t-") : std::printf("\t%.3f", time);
        std::printf("\n");
    }
    return 0;
}
