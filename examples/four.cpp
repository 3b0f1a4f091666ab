// Four jobs on one bench take turns with each other, one of each kind and one with settings of its own; each comes out as it does alone.
// c++ -Itarget/front examples/four.cpp target/front/liblensbench.a
#include "lensbench.h"
#include <array>
#include <cmath>
#include <cstdio>
#include <cstring>
#include <stdexcept>
#include <string>
#include <vector>

namespace {

class Bench {
public:
    void admit(std::size_t place, const LensRequest &request) { check("admit", lens_admit(&bench_, place, &request)); }

    // turns for all jobs alike, 0 where all are at their end
    std::uint32_t deal(std::uint16_t turns) {
        const LensDealt answer = lens_deal(&bench_, turns, scratch_.data(), scratch_.size());
        check("deal", answer.number);
        return answer.dealt;
    }

    // false at the job's end
    bool turn(std::size_t place) {
        const std::uint32_t number = lens_turn(&bench_, place, scratch_.data(), scratch_.size());
        if (number != LENS_FINISHED) check("turn", number);
        return number == LENS_DONE;
    }

    LensResult take(std::size_t place) {
        LensResult result;
        check("fetch", lens_fetch(&bench_, place, &result));
        check("release", lens_release(&bench_, place));
        return result;
    }

private:
    static void check(const char *what, std::uint32_t number) {
        if (number != LENS_DONE) throw std::runtime_error(std::string(what) + " is refused with " + std::to_string(number));
    }

    LensBench bench_{}; // zero: empty
    std::array<double, LENS_SCRATCH> scratch_{};
};

// a plano-convex lens whose first curvature and thickness vary
LensRequest request_of(std::uint64_t kind) {
    LensRequest request{};
    request.kind = kind;
    LensJob &job = request.job;
    job.surface_count = 2, job.slot_count = 1, job.entrance_pupil_diameter_mm = 8;
    job.surfaces[0] = {64, 0, 16, 10};
    job.surfaces[1] = {INFINITY, 0, 0, 10};
    job.indices[0] = 2, job.indices[4] = 1;
    job.variable_count = 2;
    job.variables[0] = {LENS_CURVATURE, 0, 1, 0.001, 0.1, 1e-4, LENS_FOLLOWS_NOTHING, 0};
    job.variables[1] = {LENS_THICKNESS, 0, 1, 2, 20, 0.1, LENS_FOLLOWS_NOTHING, 0};
    job.operand_count = 2;
    job.operands[0] = {LENS_FOCAL_LENGTH, 0, 0, 60, 4};
    job.operands[1] = {LENS_GREATEST_CENTRE_THICKNESS, 0, 10, 0, 1};
    return request;
}

} // namespace

int main() try {
    if (lens_abi() != LENS_ABI) throw std::runtime_error("another version is linked");
    std::vector<LensRequest> requests{request_of(LENS_DAMPED), request_of(LENS_MULTI_START), request_of(LENS_ANNEALING), request_of(LENS_MULTI_START)};
    requests[3].given = LENS_GIVES_NUM_TRIALS | LENS_GIVES_SEED;
    requests[3].job.settings.num_trials = 3;
    requests[3].job.settings.seed = 7;

    Bench together;
    for (std::size_t i = 0; i < requests.size(); i++) together.admit(i, requests[i]);
    while (together.deal(100) > 0) continue;
    for (std::size_t i = 0; i < requests.size(); i++) {
        Bench alone;
        alone.admit(0, requests[i]);
        while (alone.turn(0)) continue;
        const LensResult one = together.take(i), other = alone.take(0);
        if (std::memcmp(&one, &other, sizeof one) != 0) throw std::runtime_error("a job comes out otherwise than alone");
        std::printf("job %zu: merit %g, at first %g, radius %.6f\n", i, one.final_merit, one.initial_merit, one.surfaces[0].radius_mm);
    }
    return 0;
} catch (const std::exception &e) {
    std::fprintf(stderr, "four: %s\n", e.what());
    return 1;
}
