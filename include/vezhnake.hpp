// Vezhnake in a C++17 program: a persistent machine of objects over your storage. The machine is proved. This header is not: it carries
// out the device calls of vezhnake.h.
//
//     auto machine = vezhnake::machine::open("first.image");
//     machine.call(1, 6, {2, 3, 99});
//     machine.save();
#ifndef VEZHNAKE_HPP
#define VEZHNAKE_HPP

#include "vezhnake.h"

#include <algorithm>
#include <array>
#include <cerrno>
#include <cstring>
#include <initializer_list>
#include <memory>
#include <optional>
#include <sstream>
#include <stdexcept>
#include <string>
#include <string_view>
#include <system_error>
#include <utility>
#include <vector>

#include <fcntl.h>
#include <sys/file.h>
#include <unistd.h>

namespace vezhnake {

// The base of the exceptions below. file_storage throws std::system_error, which isn't one of them.
class error : public std::runtime_error {
    using std::runtime_error::runtime_error;
};

// The library returned a status other than VEZHNAKE_OK.
class status_error : public error {
public:
    explicit status_error(uint32_t number) : error("vezhnake: status " + std::to_string(number)), status(number) {}
    uint32_t status;
};

// The machine refused a command, and nothing changed.
class refused : public error {
public:
    explicit refused(const std::string &words) : error("the machine answered: " + words), answer(words) {}
    std::string answer;
};

// A kernel object replied with a result code other than 0.
class order_refused : public error {
public:
    explicit order_refused(uint64_t number) : error("result code " + std::to_string(number)), code(number) {}
    uint64_t code;
};

// The storage of an image. A crash may tear or drop the writes since the last sync. If it throws, the machine is closed.
class storage {
public:
    virtual ~storage() = default;
    // The whole image.
    virtual std::vector<uint8_t> read() = 0;
    // Writes all these bytes from `byte` on.
    virtual void write(uint64_t byte, const uint8_t *data, size_t size) = 0;
    // Makes all earlier writes durable.
    virtual void sync() = 0;
};

// An image at the start of a file or a block device, which is locked while it is open.
class file_storage : public storage {
public:
    explicit file_storage(std::string path) : path_(std::move(path)), file_(::open(path_.c_str(), O_RDWR | O_CLOEXEC)) {
        if (file_ < 0) fail();
        if (flock(file_, LOCK_EX | LOCK_NB) || fsync(file_)) {
            const int number = errno;
            ::close(file_);
            errno = number;
            fail();
        }
    }
    file_storage(const file_storage &) = delete;
    file_storage &operator=(const file_storage &) = delete;
    ~file_storage() override { ::close(file_); }

    // The sectors of the image. The file may be longer: what follows the image is not read.
    std::vector<uint8_t> read() override {
        // The end, because the size that fstat reports is 0 for a block device.
        const off_t end = lseek(file_, 0, SEEK_END);
        if (end < 0) fail();
        const uint64_t sectors = static_cast<uint64_t>(end) / 512;
        std::vector<uint8_t> image;
        extend(image, std::min(sectors, least));
        // The superblock says at byte 56 how many sectors the image has.
        uint64_t total = 0;
        for (size_t place = 64; !image.empty() && place-- > 56;) total = total << 8 | image[place];
        extend(image, std::min({sectors, most, std::max(least, total)}));
        return image;
    }
    void write(uint64_t byte, const uint8_t *data, size_t size) override {
        while (size) {
            const ssize_t done = pwrite(file_, data, size, static_cast<off_t>(byte));
            if (done < 0) fail();
            byte += static_cast<uint64_t>(done), data += done, size -= static_cast<size_t>(done);
        }
    }
    void sync() override {
        if (fdatasync(file_)) fail();
    }

private:
    // An image has at least the sectors of the superblock and the headers, and at most 64 MiB.
    static constexpr uint64_t least = 5, most = 131072;

    // Reads on until the image has this many sectors.
    void extend(std::vector<uint8_t> &image, uint64_t sectors) const {
        size_t place = image.size();
        image.resize(static_cast<size_t>(sectors) * 512);
        while (place < image.size()) {
            const ssize_t done = pread(file_, &image[place], image.size() - place, static_cast<off_t>(place));
            if (done <= 0) fail(done ? errno : EIO);
            place += static_cast<size_t>(done);
        }
    }
    [[noreturn]] void fail(int number = errno) const {
        throw std::system_error(number, std::generic_category(), number == EWOULDBLOCK ? path_ + ": another program uses the image" : path_);
    }
    std::string path_;
    int file_;
};

// The words of an answer as numbers, as `eros run` writes them.
inline std::string text_of(const vezhnake_reply &reply) {
    const auto numbered = [&](const char *words) { return words + (' ' + std::to_string(reply.first)); };
    switch (reply.kind) {
    case VEZHNAKE_DONE: return "done";
    case VEZHNAKE_VALUE: return numbered("value");
    case VEZHNAKE_MEMORY_FAULT: return numbered("memory fault");
    case VEZHNAKE_FROZEN: return numbered("frozen");
    case VEZHNAKE_LEFT: return numbered("left");
    case VEZHNAKE_COMMITTED: return numbered("committed");
    case VEZHNAKE_JOURNALED: return numbered("journaled");
    case VEZHNAKE_AT: return numbered("at") + ' ' + std::to_string(reply.second);
    case VEZHNAKE_SHOWN: return numbered("object");
    case VEZHNAKE_DOWN: return "down";
    case VEZHNAKE_NO_PROCESS: return "no process";
    case VEZHNAKE_NOT_RUNNING: return "not running";
    case VEZHNAKE_WORN: return "worn";
    case VEZHNAKE_STALLED: return "stalled";
    case VEZHNAKE_LOG_FULL: return "log full";
    case VEZHNAKE_CHECKPOINT_RUNNING: return "checkpoint running";
    case VEZHNAKE_MIGRATION_PENDING: return "migration pending";
    case VEZHNAKE_NOT_STABLE: return numbered("not stable");
    case VEZHNAKE_NO_CHECKPOINT: return "no checkpoint";
    case VEZHNAKE_COMMAND_NO_MEMORY: return "no memory";
    case VEZHNAKE_FAULT: return "fault";
    case VEZHNAKE_BAD_NUMBER: return "bad number";
    case VEZHNAKE_NOT_JOURNALED: return numbered("not journaled");
    default: return numbered("answer");
    }
}

// What a call of the library copies to a buffer. The buffer has `size` bytes at first, and grows if they don't suffice.
inline std::vector<uint8_t> copied(uint32_t call(const uint8_t *, size_t, uint8_t *, size_t, size_t *), const uint8_t *data, size_t length,
                                   size_t size) {
    std::vector<uint8_t> buffer(size);
    uint32_t status = 0;
    while ((status = call(data, length, buffer.data(), buffer.size(), &size)) == VEZHNAKE_SMALL_BUFFER) buffer.resize(size);
    if (status) throw status_error(status);
    buffer.resize(size);
    return buffer;
}
inline std::string as_text(const std::vector<uint8_t> &bytes) { return {bytes.begin(), bytes.end()}; }

// The image of a description in TOML. If the description breaks a rule, the status of the exception says which one.
inline std::vector<uint8_t> build(std::string_view description) {
    return copied(vezhnake_build, reinterpret_cast<const uint8_t *>(description.data()), description.size(), 0);
}
// The sizes of an image, and counts of its objects. Throws status_error if the image can't be opened.
inline vezhnake_info check(const std::vector<uint8_t> &image) {
    vezhnake_info info{};
    if (const uint32_t status = vezhnake_check(image.data(), image.size(), &info)) throw status_error(status);
    return info;
}
// The description of all that an image saves.
inline std::string describe(const std::vector<uint8_t> &image) {
    return as_text(copied(vezhnake_describe, image.data(), image.size(), 1 << 16));
}
// The line that explains an image or a description: "ok", or the place that breaks a rule and what is wrong there.
inline std::string explain(const std::vector<uint8_t> &image) {
    return as_text(copied(vezhnake_explain, image.data(), image.size(), 1 << 10));
}
inline std::string explain(std::string_view description) {
    return as_text(copied(vezhnake_explain_text, reinterpret_cast<const uint8_t *>(description.data()), description.size(), 1 << 10));
}

// The reply to an invocation. `code` is the result code, if a kernel object replied, and `values` are the other words of the reply.
struct reply {
    std::optional<uint64_t> code;
    std::array<uint64_t, 3> values{};
};

// A machine over storage, which is closed when it goes out of scope. What was not saved is lost then. A method returns once the storage has
// carried out the device calls.
class machine {
public:
    // `cache` is the most objects in memory, 8 to 8192, or 0 for all.
    explicit machine(std::unique_ptr<storage> over, uint64_t cache = 0) : storage_(std::move(over)), buffer_(1 << 16) {
        const auto image = storage_->read();
        check(vezhnake_open(image.data(), image.size(), cache, &handle_));
    }
    static machine open(std::string path, uint64_t cache = 0) { return machine(std::make_unique<file_storage>(std::move(path)), cache); }
    machine(machine &&other) noexcept
        : storage_(std::move(other.storage_)), handle_(std::exchange(other.handle_, vezhnake_machine VEZHNAKE_CLOSED)),
          buffer_(std::move(other.buffer_)) {}
    machine &operator=(machine &&) = delete;
    ~machine() { close(); }

    // Closes the machine and its storage.
    void close() noexcept {
        if (handle_.is_open) vezhnake_close(&handle_);
        storage_.reset();
    }

    // Runs the lines of a text, and returns the answers as `eros run` writes them. Doesn't throw because of an answer.
    std::string run(std::string_view text) {
        size_t size = 0;
        const auto *from = reinterpret_cast<const uint8_t *>(text.data());
        uint32_t status = vezhnake_step(&handle_, from, text.size(), buffer_.data(), buffer_.size(), &size);
        if (status == VEZHNAKE_SMALL_BUFFER) {
            buffer_.resize(size);
            status = vezhnake_answer(&handle_, buffer_.data(), buffer_.size(), &size);
        }
        check(status);
        std::string answers(reinterpret_cast<char *>(buffer_.data()), size);
        perform();
        return answers;
    }

    // Runs one line whose answer begins with `kind`, and returns the number in it, or 0.
    uint64_t command(std::string_view line, std::string_view kind) { return number_in(run(line), kind); }

    // Serves commands one after another, and returns the answer to each. Throws for the status VEZHNAKE_BAD_COMMAND, but for no answer.
    std::vector<vezhnake_reply> serve(const std::vector<vezhnake_command> &commands) {
        std::vector<vezhnake_reply> replies(commands.size());
        size_t served = 0;
        const uint32_t status = vezhnake_serve(&handle_, commands.data(), commands.size(), replies.data(), replies.size(), &served);
        if (status != VEZHNAKE_BAD_COMMAND) check(status);
        perform();
        if (status) throw status_error(status);
        return replies;
    }

    // Serves one command. Throws if it is refused.
    vezhnake_reply serve(const vezhnake_command &command) { return accepted(serve(std::vector<vezhnake_command>{command}).front()); }

    // The process invokes the capability in its register, and gets the reply. After a call of another process there is no code.
    reply call(uint64_t process, uint8_t reg, std::initializer_list<uint64_t> words, std::initializer_list<uint8_t> sent = {}) {
        const vezhnake_reply answer = serve(invocation(VEZHNAKE_CALL, process, reg, words, sent));
        reply got;
        if (answer.code == VEZHNAKE_NO_CODE) return got;
        if (answer.code) throw order_refused(answer.code);
        const vezhnake_object shown = object(process);
        got.code = answer.code;
        for (size_t i = 0; i < 3; i++) got.values[i] = shown.words[i + 1];
        return got;
    }

    // The process invokes the capability in its register, and gets no reply.
    void send(uint64_t process, uint8_t reg, std::initializer_list<uint64_t> words, std::initializer_list<uint8_t> sent = {}) {
        serve(invocation(VEZHNAKE_SEND, process, reg, words, sent));
    }

    // The word at an address of the process.
    uint64_t load(uint64_t process, uint64_t address) {
        return serve(vezhnake_command{VEZHNAKE_LOAD, 0, {}, process, {address, 0, 0, 0}}).first;
    }

    // Writes the word at an address of the process.
    void store(uint64_t process, uint64_t address, uint64_t value) {
        serve(vezhnake_command{VEZHNAKE_STORE, 0, {}, process, {address, value, 0, 0}});
    }

    // The words of a page.
    std::array<uint64_t, 512> page(uint64_t number) {
        vezhnake_page_words shown{};
        vezhnake_reply answer{};
        check(vezhnake_page(&handle_, number, &shown, &answer));
        perform();
        if (accepted(answer).second != 1) throw refused("object " + std::to_string(number) + " is no page");
        std::array<uint64_t, 512> words{};
        std::copy_n(shown.words, words.size(), words.begin());
        return words;
    }

    // An object.
    vezhnake_object object(uint64_t number) {
        vezhnake_object shown{};
        vezhnake_reply answer{};
        check(vezhnake_show(&handle_, number, &shown, &answer));
        perform();
        accepted(answer);
        return shown;
    }

    // Saves the state in one step, and returns the generation: migrates what an earlier run left, freezes, stabilizes, commits and
    // migrates. Throws for the first of these that is refused.
    uint64_t save() {
        std::array<vezhnake_reply, VEZHNAKE_SAVE_STAGES> replies{};
        size_t served = 0;
        check(vezhnake_save(&handle_, replies.data(), replies.size(), &served));
        perform();
        accepted(replies.at(served - 1));
        return replies[3].first;
    }

private:
    void check(uint32_t status) {
        if (status == VEZHNAKE_OK) return;
        close();
        throw status_error(status);
    }
    static uint64_t number_in(const std::string &answer, std::string_view kind) {
        std::istringstream words(answer);
        std::string first;
        uint64_t number = 0;
        if (!(words >> first) || first != kind) throw refused(answer.substr(0, answer.find('\n')));
        words >> number;
        return number;
    }
    static vezhnake_command invocation(uint32_t kind, uint64_t process, uint8_t reg, std::initializer_list<uint64_t> words,
                                       std::initializer_list<uint8_t> sent) {
        if (words.size() > 4 || sent.size() > 4) throw std::invalid_argument("an invocation sends at most four words and four capabilities");
        vezhnake_command made{kind, reg, {}, process, {}};
        std::copy(words.begin(), words.end(), made.words);
        std::copy(sent.begin(), sent.end(), made.sent);
        return made;
    }
    // An answer. Throws if the command was refused.
    static const vezhnake_reply &accepted(const vezhnake_reply &reply) {
        if (reply.kind == VEZHNAKE_MEMORY_FAULT || reply.kind >= VEZHNAKE_DOWN) throw refused(text_of(reply));
        return reply;
    }
    // Carries out the device calls. Closes the machine if the storage fails.
    void perform() {
        try {
            carry_out();
        } catch (...) {
            close();
            throw;
        }
    }
    // Carries out the device calls.
    void carry_out() {
        size_t size = 0;
        uint32_t status = 0;
        while ((status = vezhnake_calls(&handle_, buffer_.data(), buffer_.size(), &size)) == VEZHNAKE_SMALL_BUFFER) buffer_.resize(size);
        check(status);
        for (size_t place = 0; place < size;) {
            const uint64_t byte = number_at(place), length = number_at(place + 8);
            place += 16;
            if (byte == UINT64_MAX) storage_->sync();
            else storage_->write(byte, &buffer_[place], length);
            place += length;
        }
    }
    // A little-endian number of 8 bytes.
    uint64_t number_at(size_t place) const {
        uint64_t number = 0;
        for (size_t i = 8; i-- > 0;) number = number << 8 | buffer_[place + i];
        return number;
    }
    std::unique_ptr<storage> storage_;
    vezhnake_machine handle_ = VEZHNAKE_CLOSED;
    std::vector<uint8_t> buffer_;
};

} // namespace vezhnake

#endif
