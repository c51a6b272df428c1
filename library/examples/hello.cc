// A first program in C++17.
//   c++ -std=c++17 -I release/x86_64-linux library/examples/hello.cc release/x86_64-linux/libflagops.a && ./a.out
#include "flagops.hh"
#include <iostream>

int main() try {
    flagops::Seat seat;
    seat.open(R"({"flags":{"hi":{"state":"ENABLED","variants":{"on":true,"off":false},"defaultVariant":"off",
        "targeting":{"if":[{"ends_with":[{"var":"email"},"@example.com"]},"on"]}}}})");
    flagops::Seat moved = std::move(seat);
    flagops::Answer answer = moved.resolve("hi", FLAGOPS_BOOL, "false", R"({"email":"ann@example.com"})");
    std::cout << "hi is " << answer.value << ", by the variant " << answer.variant.value_or("(none)") << "\n";
    return 0;
} catch (const flagops::Refused &refused) {
    std::cerr << refused.what() << "\n";
    return 1;
}
