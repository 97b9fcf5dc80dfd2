// The BCH code (31, 21) of the library IT++, which corrects two wrong bits, for tools/compare-itpp. It answers a line on
// standard output for each line on standard input:
//
//   E and six hexadecimal digits, 21 information bits
//              the codeword of 31 bits, as eight digits
//   D and eight hexadecimal digits, 31 received bits
//              the codeword to which they are decoded, as eight digits, or a dash where they cannot be
//
// IT++ works out the generator by itself; only the length of the code and how many bits it corrects are said here. The
// highest bit of a number is the first of the bits that IT++ takes, and the coefficient of the highest power.
#include <cstdio>
#include <cstdlib>
#include <itpp/itcomm.h>

namespace {

const int code_bits = 31;
const int information_bits = 21;
const int corrected_bits = 2;

itpp::bvec bits_of(unsigned long number, int count)
{
    itpp::bvec bits(count);
    for (int place = 0; place < count; place++)
        bits(place) = static_cast<int>(number >> (count - 1 - place) & 1);
    return bits;
}

unsigned long number_of(const itpp::bvec &bits)
{
    unsigned long number = 0;
    for (int place = 0; place < bits.size(); place++)
        number = number << 1 | static_cast<unsigned long>(static_cast<int>(bits(place)));
    return number;
}

} // namespace

int main()
{
    // Systematic: the information bits come first in a codeword, and the check bits after them.
    itpp::BCH code(code_bits, corrected_bits, true);
    if (code.get_k() != information_bits) {
        std::fprintf(stderr, "bch: the code has %d information bits\n", code.get_k());
        return EXIT_FAILURE;
    }
    char line[16];
    while (std::fgets(line, sizeof line, stdin)) {
        unsigned long number = std::strtoul(line + 1, nullptr, 16);
        itpp::bvec information, is_decoded;
        switch (line[0]) {
        case 'E':
            std::printf("%08lX\n", number_of(code.encode(bits_of(number, information_bits))));
            break;
        case 'D':
            // It answers with information bits. Their codeword tells which bits were changed.
            if (code.decode(bits_of(number, code_bits), information, is_decoded))
                std::printf("%08lX\n", number_of(code.encode(information)));
            else
                std::puts("-");
            break;
        default:
            std::fprintf(stderr, "bch: unknown line %s", line);
            return EXIT_FAILURE;
        }
    }
    return EXIT_SUCCESS;
}
