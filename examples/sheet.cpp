// The sheet program of sheet.c in C++17: the lists are vectors, and a refusal is an exception.
#include <cstddef>
#include <cstdint>
#include <iostream>
#include <stdexcept>
#include <string>
#include <vector>
#include "tavitrozy.h"

namespace {

struct Refused : std::runtime_error {
  explicit Refused(unsigned number) : std::runtime_error("refused with " + std::to_string(number)) {}
};

void accepted(std::uint8_t number) {
  if (number != 0) throw Refused(number);
}

// All clips' samples, one after the other.
class Samples {
 public:
  void value(double time, double value) { add(time, value, TAVITROZY_VALUE); }
  void block(double time) { add(time, 0.0, TAVITROZY_BLOCK); }
  void end_clip() { ends_.push_back(times_.size()); }

  void print() const {
    std::size_t at = 0;
    for (std::size_t clip = 0; clip < ends_.size(); clip++) {
      std::cout << "clip " << clip << ":";
      for (; at < ends_[clip]; at++) {
        std::cout << " " << times_[at] << "->";
        if (marks_[at] == TAVITROZY_VALUE) std::cout << values_[at];
        else std::cout << "block";
      }
      std::cout << "\n";
    }
  }

  // Calls f with the lists as the library takes them, between the resolver and what comes after.
  template <class F, class... Rest>
  auto lend(F f, const tavitrozy_resolver &set, Rest... rest) const {
    return f(&set, times_.data(), times_.size(), values_.data(), values_.size(), marks_.data(), marks_.size(), ends_.data(), ends_.size(), rest...);
  }

 private:
  void add(double time, double value, std::uint8_t mark) { times_.push_back(time), values_.push_back(value), marks_.push_back(mark); }

  std::vector<double> times_, values_;
  std::vector<std::uint8_t> marks_;
  std::vector<std::uint64_t> ends_;
};

class Track {
 public:
  // The count first, then as many slots.
  Track(const tavitrozy_resolver &set, const Samples &samples) {
    const tavitrozy_counted changes = samples.lend(tavitrozy_change_count, set);
    accepted(changes.number);
    times_.resize(changes.count), values_.resize(changes.count), marks_.resize(changes.count);
    const tavitrozy_baked baked =
      samples.lend(tavitrozy_bake, set, times_.data(), times_.size(), values_.data(), values_.size(), marks_.data(), marks_.size());
    accepted(baked.number);
    head_ = {baked.value, baked.mark};
  }

  std::size_t size() const { return times_.size(); }
  tavitrozy_entry read(double stage_time) const {
    return tavitrozy_read(head_, times_.data(), times_.size(), values_.data(), values_.size(), marks_.data(), marks_.size(), {stage_time});
  }

 private:
  tavitrozy_entry head_{};
  std::vector<double> times_, values_;
  std::vector<std::uint8_t> marks_;
};

void print_set(const tavitrozy_resolver &set) {
  std::cout << "set: " << set.shape.clips << " clips, starts";
  for (std::size_t i = 0; i < set.shape.counts.starts; i++) std::cout << " " << set.starts[i] << " (clip " << set.numbers[i] << ")";
  std::cout << ", knots";
  for (std::size_t i = 0; i < set.shape.counts.knots; i++) std::cout << " " << set.xs[i] << "->" << set.ys[i];
  std::cout << "\n";
}

void draw(const Track &track) {
  std::cout << track.size() << " changes\n";
  for (int frame = 24; frame <= 32; frame++) {
    const tavitrozy_entry entry = track.read(frame);
    if (entry.mark == TAVITROZY_VALUE) std::cout << frame << ": drawn at " << entry.value << "\n";
    else std::cout << frame << ": not drawn\n";
  }
}

Track baked() {
  const std::vector<double> starts{20, 28}, numbers{0, 1}, xs{20, 28, 36}, ys{10, 0, 8};
  Samples samples;
  samples.value(0, 1), samples.value(10, 2), samples.end_clip();
  samples.value(0, 3), samples.block(2), samples.end_clip();

  tavitrozy_resolver set;
  tavitrozy_fresh(&set);
  accepted(tavitrozy_accept(&set, 2, starts.data(), starts.size(), numbers.data(), numbers.size(),
    xs.data(), xs.size(), ys.data(), ys.size(), nullptr, 0, {TAVITROZY_NONE, 0}, false));
  print_set(set);
  samples.print();
  return Track(set, samples);
}

}  // namespace

int main() try {
  if (!tavitrozy_environment_is_exact()) throw std::runtime_error("doubles are not computed as the library needs it");
  draw(baked());
} catch (const std::exception &e) {
  std::cerr << e.what() << "\n";
  return 1;
}
