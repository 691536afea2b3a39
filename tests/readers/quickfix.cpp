// quickfix DICTIONARY < REPORTS: lets QuickFIX read reports, one a line, and answers a line for each: "good", or "bad" and why.
// Good means: BodyLength and CheckSum are true, every field is one of its message's in the dictionary, with
// a value of its type and its set, nothing required is missing, the header stands before the body, and QuickFIX, asked to write
// the message again, writes the same bytes.
#include <exception>
#include <iostream>
#include <string>

#include <quickfix/DataDictionary.h>
#include <quickfix/Message.h>

static std::string judged(const std::string &report, const FIX::DataDictionary &dictionary)
{
    try {
        FIX::Message message(report, dictionary, true);
        dictionary.validate(message);
        return message.toString() == report ? "good" : "bad: written again it differs";
    } catch (const std::exception &e) {
        return std::string("bad: ") + e.what();
    }
}

int main(int count, char **words)
{
    if (count != 2) {
        std::cerr << "usage: quickfix DICTIONARY < REPORTS\n";
        return 2;
    }
    const FIX::DataDictionary dictionary(words[1]);
    std::string line;
    while (std::getline(std::cin, line))
        std::cout << judged(line, dictionary) << '\n';
    return 0;
}
