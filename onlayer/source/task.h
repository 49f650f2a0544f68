// A function that can wait: it runs until it has to, and goes on where whoever it waits for resumes it.
#pragma once
#include <coroutine>
#include <optional>
#include <utility>

template <class T> class Task {
public:
    struct promise_type;
    typedef std::coroutine_handle<promise_type> Handle;

    struct End {                               // who waits for the task goes on
        bool await_ready() noexcept { return false; }
        std::coroutine_handle<> await_suspend(Handle own) noexcept { return own.promise().then; }
        void await_resume() noexcept {}
    };
    struct promise_type {
        std::optional<T> value;
        std::coroutine_handle<> then = std::noop_coroutine();

        Task get_return_object() { return Task(Handle::from_promise(*this)); }
        std::suspend_never initial_suspend() noexcept { return {}; }
        End final_suspend() noexcept { return {}; }
        void return_value(T given) { value = std::move(given); }
        void unhandled_exception() { throw; }
    };

    Task() = default;
    Task(Task &&other) noexcept : own(std::exchange(other.own, nullptr)) {}
    Task &operator=(Task &&other) noexcept {
        if (this != &other) drop(), own = std::exchange(other.own, nullptr);
        return *this;
    }
    ~Task() { drop(); }

    bool is_done() const { return own && own.done(); }
    T take() { return std::move(*own.promise().value); }

    bool await_ready() const { return own.done(); }
    void await_suspend(std::coroutine_handle<> then) { own.promise().then = then; }
    T await_resume() { return take(); }

private:
    Handle own;

    explicit Task(Handle begun) : own(begun) {}
    void drop() {
        if (own) own.destroy();
        own = nullptr;
    }
};
