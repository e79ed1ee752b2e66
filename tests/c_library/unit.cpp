// The header as C++ reads it: a document that frees itself.
#include <cstdio>
#include <string>
#include "bigrosk_ini.h"

class Settings {
    bigrosk_ini_document document = BIGROSK_INI_EMPTY;

public:
    Settings(const Settings &) = delete;
    Settings &operator=(const Settings &) = delete;

    explicit Settings(const std::string &text)
    {
        bigrosk_ini_fault fault;
        if (bigrosk_ini_load_str(text.c_str(), &document, &fault) != BIGROSK_INI_OK) throw 1;
    }

    ~Settings() { bigrosk_ini_free(&document); }

    std::string get(const char *section, const char *key)
    {
        bigrosk_ini_borrowed value;
        if (bigrosk_ini_borrow_str(&document, section, key, &value) != BIGROSK_INI_OK) return "";
        return std::string(reinterpret_cast<const char *>(value.bytes), value.count);
    }
};

// The text without the key's first pair, with its comments kept; the text itself where there is none.
static std::string without(const std::string &text, const char *section, const char *key)
{
    bigrosk_ini_fault fault;
    std::size_t count = 0;
    std::string out(text.size() + 16, 0);
    uint32_t status = bigrosk_ini_edit_delete_str(text.c_str(), section, key, &out[0], out.size(), &count, &fault);
    if (status == BIGROSK_INI_ABSENT) return text;
    if (status != BIGROSK_INI_OK) throw status;
    out.resize(count);
    return out;
}

// The text with a value set, and with another in a new line.
static std::string with(const char *text, const char *section, const char *key, const char *value)
{
    bigrosk_ini_fault fault;
    std::size_t count = 0;
    char set[128], added[128];
    if (bigrosk_ini_edit_set_str(text, section, key, value, set, sizeof set, &count, &fault) != BIGROSK_INI_OK) return "";
    if (bigrosk_ini_edit_set_str(set, section, "new", value, added, sizeof added, &count, &fault) != BIGROSK_INI_OK) return "";
    return std::string(added, count);
}

// A text that stays open and closes itself.
class Text {
    struct bigrosk_ini_text text = BIGROSK_INI_TEXT_EMPTY;

public:
    Text(const Text &) = delete;
    Text &operator=(const Text &) = delete;

    explicit Text(const std::string &bytes)
    {
        bigrosk_ini_fault fault;
        if (bigrosk_ini_text_open_str(bytes.c_str(), &text, &fault) != BIGROSK_INI_OK) throw 1;
    }

    ~Text() { bigrosk_ini_text_close(&text); }

    long long number(const char *section, const char *key)
    {
        long long value = -1;
        bigrosk_ini_place place = BIGROSK_INI_NO_PLACE_YET;
        return bigrosk_ini_text_get_int(&text, section, key, &value, &place) == BIGROSK_INI_OK ? value : -1;
    }

    bool set(const char *section, const char *key, const std::string &value)
    {
        return bigrosk_ini_text_set_str(&text, section, key, value.c_str()) == BIGROSK_INI_OK;
    }

    std::string whole()
    {
        bigrosk_ini_buffer buffer = BIGROSK_INI_BUFFER_EMPTY;
        if (bigrosk_ini_text_to_buffer(&text, &buffer) != BIGROSK_INI_OK) throw 2;
        std::string out(reinterpret_cast<const char *>(buffer.bytes), buffer.count);
        bigrosk_ini_buffer_free(&buffer);
        return out;
    }
};

int main()
{
    Settings settings("port = 8080\n[paths]\nlog = /var/log/app\n");
    bool good = settings.get(nullptr, "port") == "8080" && settings.get("paths", "log") == "/var/log/app"
        && settings.get("paths", "port").empty();
    good = good && without("# c\n[s]\na=1\nb=2\n", "s", "a") == "# c\n[s]\nb=2\n" && without("a=1", "s", "a") == "a=1"
        && with("# c\n[s]\na = 1 \n", "s", "a", "2") == "# c\n[s]\na = 2 \nnew = 2\n";
    Text text("# c\n[s]\na = 1\n");
    good = good && text.number("s", "a") == 1 && text.set("s", "a", "22") && text.number("s", "a") == 22
        && text.set("t", "b", "3") && text.whole() == "# c\n[s]\na = 22\n\n[t]\nb = 3\n";
    std::puts(good ? "good" : "FAILED");
    return !good;
}
