// Judges two lines by a grammar, and prints the answers. Build: c++ days.cpp $(pkg-config --cflags --libs fanquber)
#include "fanquber.hpp"

#include <iostream>

int main() {
    const fanquber::grammar day(fanquber::tool::abnf, "day = 4DIGIT \"-\" 2DIGIT \"-\" 2DIGIT\n");
    const fanquber::reply got = day.run("1985-04-12\n1985-4-12\n");
    std::cout << got.out << "status " << got.status << "\n";
    fanquber::judge judge(day); // the grammar is read once
    return judge("1985-04-12").derived && !judge("1985-4-12").derived ? 0 : 1;
}
