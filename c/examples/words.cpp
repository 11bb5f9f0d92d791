// Runs a grammar of peg(1), which is read once, on two inputs, and prints what it writes. Build:
// c++ words.cpp $(pkg-config --cflags --libs fanquber)
#include "fanquber.hpp"

#include <iostream>

int main() {
    fanquber::runner run(fanquber::grammar(fanquber::tool::peg, "S <- < [a-z]+ > { yytext }\n"));
    for (const char *input : {"tea", "milk?"}) {
        const fanquber::reply got = run(input);
        std::cout << got.out << "status " << got.status << "\n";
    }
    return 0;
}
