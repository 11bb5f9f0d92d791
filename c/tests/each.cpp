// each: run_each of fanquber.hpp gives what run gives for each input, a judge has the notes of run on its grammar, and a
// runner writes what run does after them. A comparison has the lines and the notes of both grammars.
#include "../examples/fanquber.hpp"

#include <iostream>

static int wrong = 0;

#define CHECK(holds) \
    do { \
        if (!(holds)) { \
            std::cout << __FILE__ << ":" << __LINE__ << ": not so: " << #holds << "\n"; \
            wrong = 1; \
        } \
    } while (0)

static void each_is_a_run(const std::string &text, bool explain) {
    fanquber::grammar of(fanquber::tool::peg, text);
    of.settings().explain = explain;
    const std::vector<std::string_view> inputs = {"tea", "", "milk2", std::string_view(), "tea"};
    const std::vector<fanquber::reply> got = of.run_each(inputs);
    CHECK(got.size() == inputs.size());
    for (std::size_t at = 0; at < got.size(); at++) {
        const fanquber::reply want = of.run(inputs[at]);
        CHECK(got[at].out == want.out && got[at].err == want.err && got[at].status == want.status);
    }
    CHECK(of.run_each({}).empty());
}

static void runner_is_a_run(const std::string &text, bool explain) {
    fanquber::grammar of(fanquber::tool::peg, text);
    of.settings().explain = explain;
    fanquber::runner run(of);
    for (const std::string_view input : {std::string_view("tea"), std::string_view(), std::string_view("milk2")}) {
        const fanquber::reply got = run(input), want = of.run(input);
        CHECK(got.out == want.out && run.notes() + got.err == want.err && got.status == want.status);
    }
}

static void comparisons() {
    const std::string text(400, 'x'), note = "rule 'b' defined but not used\n";
    const fanquber::grammar one(fanquber::tool::abnf, "a = %s\"" + text + "\"\nb = %x42\n");
    fanquber::grammar two(fanquber::tool::abnf, "a = %x41\nb = %x42\n");
    const fanquber::comparison found = fanquber::comparison::of(one, two.start("b"));
    CHECK(found.status == FANQUBER_NO_MATCH && found.old_alone.known == FANQUBER_FIRST);
    CHECK(found.old_alone.line == text && found.new_alone.line == "B");
    CHECK(found.old_notes == note && found.new_notes == "rule 'a' defined but not used\n");
    const fanquber::comparison same = fanquber::comparison::of(one, one);
    CHECK(same.status == FANQUBER_DONE && same.new_alone.known == FANQUBER_NEVER && same.new_notes == note);
}

static void listed_lines() {
    fanquber::grammar of(fanquber::tool::abnf, "d = 1*2%x30-31\n");
    of.settings().limit = 9;
    fanquber::lines lines(of);
    for (const char *want : {"0", "1", "00", "01", "10", "11"}) CHECK(lines.next() == std::string(want));
    CHECK(!lines.next() && lines.notes().empty());
    fanquber::lines missed(of, FANQUBER_MISSED);
    CHECK(missed.next() == std::string() && missed.next() == std::string("!"));
}

int main() {
    comparisons();
    listed_lines();
    const std::string words = "S <- < [a-z]+ > { yytext }\n";
    for (const std::string &text : {words, words + "T <- 'x'\n", std::string("S <- T\n"), std::string("S <- )\n")}) {
        each_is_a_run(text, false);
        each_is_a_run(text, true);
    }
    const std::string long_action = "S <- . { " + std::string(900, 'x') + " }\n";
    const fanquber::grammar of(fanquber::tool::peg, long_action);
    const std::vector<fanquber::reply> got = of.run_each({"a", "bcdefgh"});
    CHECK(got[0].out.size() == 901 && got[1].out.size() == 7 * 901);
    const fanquber::grammar two(fanquber::tool::abnf, "a = \"x\"\nb = \"y\"\n");
    fanquber::grammar explained = two;
    explained.settings().explain = true;
    CHECK(fanquber::judge(two).notes() == two.run("").err);
    CHECK(fanquber::judge(explained).notes() == explained.run("").err);
    for (const bool explain : {false, true}) {
        runner_is_a_run(words, explain);
        runner_is_a_run(words + "T <- 'x'\n", explain);
    }
    bool is_refused = false;
    try {
        fanquber::runner refused(fanquber::grammar(fanquber::tool::peg, "S <- )\n"));
    } catch (const std::invalid_argument &fault) {
        is_refused = fault.what() == std::string("line 1: syntax error\n");
    }
    CHECK(is_refused);
    CHECK(fanquber::runner(of)("bcdefgh").out.size() == 7 * 901);
    fanquber::grammar cheap(fanquber::tool::peg, "S <- < 'a'* > {yytext} 'b'");
    cheap.settings().budget = 3;
    CHECK(cheap.run("aabaaab").out == "aa\n" && cheap.run("aabaaab").status == FANQUBER_OVERLONG);
    CHECK(cheap.run("aabaaab").err == "unit at byte 3 prints more than 3 bytes\n");
    fanquber::grammar newer = of;
    newer.settings().size += 8; // as if fanquber.h had a field more
    bool is_bad = false;
    try {
        newer.run("a");
    } catch (const std::invalid_argument &) {
        is_bad = true;
    }
    CHECK(is_bad);
    fanquber::judge moved(two);
    const fanquber::judge kept = std::move(moved);
    bool threw = false;
    try {
        moved("x");
    } catch (const std::logic_error &) {
        threw = true;
    }
    CHECK(threw);
    return wrong;
}
