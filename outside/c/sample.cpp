// Follows a path from C++: document 01's example, and the same with a budget that it spends.
#include "leveretplate.h"

#include <cstdint>
#include <iostream>
#include <vector>

int main()
{
    const std::vector<std::uint8_t> sizes {2, 2}, labels {2, 2, 2, 4};
    const std::vector<std::uint16_t> divisions {1, 1}, start {1, 0, 1, 0};
    const std::size_t m = start.size(), n = m - sizes.size();
    std::vector<std::uint16_t> answer((n + 1) * m);
    std::uint64_t facts[LEVERETPLATE_FACTS];

    for (std::uint64_t budget : {UINT64_MAX, std::uint64_t {3}}) {
        const int number = leveretplate_run(sizes.data(), sizes.size(), divisions.data(), divisions.size(),
            start.data(), start.size(), labels.data(), labels.size(), answer.data(), answer.size(), budget, facts);
        if (number == LEVERETPLATE_REFUSED_BUDGET) {
            std::cout << "not ended after " << facts[0] << " places\n";
            continue;
        }
        if (number != 0)
            return number;
        std::cout << facts[0] << " places, " << facts[1] << " labels read, a " << (facts[2] ? "facet" : "place")
                  << " end for block " << facts[3] << ":";
        for (std::size_t at = 0; at < facts[4] * m; at++)
            std::cout << ' ' << answer[at];
        std::cout << '\n';
    }
}
