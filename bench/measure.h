/* What frames.cpp and blocks.cpp share: a clock, medians of interleaved rounds, and tables of times and ratios. */
#ifndef BENCH_MEASURE_H
#define BENCH_MEASURE_H

#include <algorithm>
#include <cstdio>
#include <cstdlib>
#include <string>
#include <vector>

#include <time.h>

static const int ROUNDS = 41;     /* odd, for the median */
static const int UNITS = 500;     /* frames, or eights of blocks, in a round */
static const int KEYS = 2500;     /* keys set in a round */
static const size_t OURS = 3;     /* the first three of the contenders: byte, word, long */

static inline void die(const std::string &what)
{
    fprintf(stderr, "error: %s\n", what.c_str());
    exit(1);
}

static inline double now()
{
    struct timespec t;
    clock_gettime(CLOCK_MONOTONIC, &t);
    return (double)t.tv_sec * 1e9 + (double)t.tv_nsec;
}

/* The median time of each of `count` contenders, in ns by unit: in each round every one has its turn. `turn(i)` does `units`. */
template <class Turn>
static std::vector<double> medians(size_t count, int units, Turn turn)
{
    std::vector<std::vector<double>> times(count);
    std::vector<double> answer;

    for (int round = -1; round < ROUNDS; round++) { /* round -1 only warms up */
        for (size_t i = 0; i < count; i++) {
            double start = now();
            turn(i);
            if (round >= 0) {
                times[i].push_back((now() - start) / units);
            }
        }
    }
    for (std::vector<double> &one : times) {
        std::sort(one.begin(), one.end());
        answer.push_back(one[one.size() / 2]);
    }
    return answer;
}

/* Contenders down, settings across: times, then the peers' times divided by ours. */
class Table {
public:
    Table(const std::string &title, const std::vector<std::string> &names) : title(title), names(names) {}
    void add(const std::string &setting, const std::vector<double> &times)
    {
        settings.push_back(setting);
        columns.push_back(times);
    }
    void print() const
    {
        static const char *const paths[OURS] = {"byte", "word", "long"};

        printf("\n%s\n  %-26s", title.c_str(), "");
        for (const std::string &setting : settings) {
            printf(" %9s", setting.c_str());
        }
        printf("\n");
        for (size_t i = 0; i < names.size(); i++) {
            printf("  %-26s", names[i].c_str());
            for (const std::vector<double> &times : columns) {
                printf(times[i] < 100 ? " %9.1f" : " %9.0f", times[i]);
            }
            printf("\n");
        }
        for (size_t ours = 0; ours < OURS; ours++) {
            printf("  -- %s: our speed by that of\n", paths[ours]);
            for (size_t i = OURS; i < names.size(); i++) {
                printf("  %-26s", names[i].c_str());
                for (const std::vector<double> &times : columns) {
                    printf(" %9.2f", times[i] / times[ours]);
                }
                printf("\n");
            }
            printf("  %-26s", "the fastest of them");
            for (const std::vector<double> &times : columns) {
                printf(" %9.2f", *std::min_element(times.begin() + OURS, times.end()) / times[ours]);
            }
            printf("\n");
        }
        fflush(stdout);
    }

private:
    std::string title;
    std::vector<std::string> names, settings;
    std::vector<std::vector<double>> columns;
};

/* blocks.cpp: the tables of blocks and of key schedules */
void blocks_and_schedules();

#endif
