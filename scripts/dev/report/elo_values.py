"""The formulas of a match, without a browser: published values, values by hand, a second way.

Published are the normal distribution's table (0.8413, 0.9772, 0.9987 at 1, 2, 3; 1.96 for 95 %),
Elo's expectancies (0.64, 0.76, 0.91 at 100, 200 and 400), and the bounds 2.94 of a test at 5 %. The
values by hand are worked beside them. The second way finds the likeliest distributions by searching
through the distributions themselves, where the program solves for the multiplier.
"""
import math
import random
import sys

from basics import TOP, say, wants

sys.path.insert(0, str(TOP / "scripts/report"))
import elo  # noqa: E402


def near(found, wanted, text, margin=5e-5):
    right = found is not None and abs(found - wanted) <= margin
    wants(right, f"{text}: {found}, not {wanted}")


def check_published():
    for difference, score in ((0, 0.5), (100, 0.64), (200, 0.76), (400, 0.91)):
        near(elo.expected(difference), score, f"the expectancy at {difference}", 0.005)
    # (won - lost) / sqrt(won + lost) is 1, 2 and 3
    for won, lost, known in ((1, 0, 0.8413), (4, 0, 0.9772), (9, 0, 0.9987), (10, 6, 0.8413)):
        near(elo.superiority([lost, 7, won]), known, f"the superiority of +{won} -{lost}")
    for bound, known in zip(elo.bounds(0.05, 0.05), (-2.94, 2.94)):
        near(bound, known, "the bounds at 5 %", 0.005)


def check_by_hand():
    # 10 / 11 is won where 10 ^ (elo / 400) = 10; 3 / 4 where it is 3: 400 x 0.4771213
    near(elo.elo_of([1, 0, 10])[0], 400, "+10 -1")
    near(elo.elo_of([1, 0, 3])[0], 190.8485, "+3 -1")
    near(elo.elo_of([2, 5, 2])[0], 0, "+2 =5 -2")
    # +36 =40 -24: 0.56; 36 x 0.44^2 + 40 x 0.06^2 + 24 x 0.56^2 = 14.64, whose root is 3.826225, so
    # 0.56 +- 1.959964 x 0.03826225, 0.4850074 and 0.6349926: -10.4211 and 96.1868
    difference, error = elo.elo_of([24, 40, 36])
    near(difference, 41.8941, "the difference of +36 =40 -24", 1e-3)
    near(error, 53.304, "the error of +36 =40 -24", 1e-3)
    # pairs 0 2 5 3 0: 5.25 of 10; 2 x 0.275^2 + 5 x 0.025^2 + 3 x 0.225^2 = 0.30625, whose root is
    # 0.5533986, so 0.525 +- 1.959964 x 0.05533986, 0.4165359 and 0.6334641: -58.5447 and 95.0422
    difference, error = elo.elo_of([0, 2, 5, 3, 0])
    near(difference, 17.3863, "the difference of pairs", 1e-3)
    near(error, 76.7935, "the error of pairs", 1e-3)
    # 0.025 / 0.05533986 is 0.451754
    near(elo.superiority([0, 2, 5, 3, 0]), 0.67428, "the superiority of pairs", 1e-5)
    wants(elo.elo_of([0, 0, 5]) == (None, None), "+5 has an Elo difference")


def check_test_by_hand():
    # without draws these are Wald's: 3 ln(20 / 11) + ln(2 / 11); 5 ln(20 / 11); 4 ln(2 / 11)
    near(elo.likelihood_ratio([1, 0, 3], 0, 400), 0.0887629, "LLR of +3 -1", 1e-6)
    near(elo.likelihood_ratio([0, 0, 5], 0, 400), 2.9891850, "LLR of +5", 1e-6)
    near(elo.likelihood_ratio([4, 0, 0], 0, 400), -6.8189924, "LLR of -4", 1e-6)
    # ten draws at 10 / 11: they are 2 / 11 of the likeliest: 10 ln(2 / 11)
    near(elo.likelihood_ratio([0, 10, 0], 0, 400), -17.0474809, "LLR of =10", 1e-6)
    # pairs of 0, 1 and 2 points alone are as games of 0, 1/2 and 1
    near(elo.likelihood_ratio([3, 0, 9, 0, 7], -3, 8), elo.likelihood_ratio([3, 9, 7], -3, 8),
         "LLR of pairs as of games", 1e-9)
    for counts, says in (([0, 0, 5], "H1 accepted"), ([4, 0, 0], "H0 accepted"),
                         ([1, 0, 3], "goes on"), ([0, 0, 4], "goes on")):
        found = elo.sequential_test(counts, 0, 400, 0.05, 0.05)["says"]
        wants(found == says, f"the test after {counts}: {found}")


def likelihood(counts, chances):
    return sum(count * math.log(chance) for count, chance in zip(counts, chances) if count)


def spread(free, score):
    """The distribution with these chances of the middle outcomes, and the mean."""
    steps = len(free) + 1
    last = score - sum((n + 1) / steps * it for n, it in enumerate(free))
    return [1 - sum(free) - last, *free, last]


def likeliest(counts, score):
    """The greatest likelihood with this mean, by steps from one distribution to better ones."""
    total, size = sum(counts), 0.1
    free = [min(it / total, 1e-3) for it in counts[1:-1]]
    best = likelihood(counts, spread(free, score))
    dice = random.Random(1)
    while size > 1e-10:
        for _ in range(60):
            tried = [it + dice.gauss(0, size) for it in free]
            chances = spread(tried, score)
            if all(it > 0 for it in chances) and (found := likelihood(counts, chances)) > best:
                free, best = tried, found
                break
        else:
            size /= 1.6
    return best


def check_second_way():
    cases = [([24, 40, 36], 0, 5), ([310, 402, 288], -3, 1), ([7, 30, 18], 0, 50),
             ([11, 204, 530, 240, 15], 0, 4), ([2, 21, 40, 26, 6], -10, 10)]
    for counts, elo0, elo1 in cases:
        wanted = likeliest(counts, elo.expected(elo1)) - likeliest(counts, elo.expected(elo0))
        near(elo.likelihood_ratio(counts, elo0, elo1), wanted, f"LLR of {counts}", 1e-5)
    return len(cases)


def check_error(rounds=4000):
    """Among drawn matches, the true difference is within the error about 95 times in 100."""
    dice, within = random.Random(2), 0
    for _ in range(rounds):
        drawn = dice.choices((0, 1, 2), (30, 45, 25), k=200)
        difference, error = elo.elo_of([drawn.count(it) for it in (0, 1, 2)])
        within += abs(difference - elo.difference(0.475)) <= error
    wants(0.935 <= within / rounds <= 0.965, f"within the error: {within} of {rounds}")
    return within / rounds


def check_values():
    check_published()
    check_by_hand()
    check_test_by_hand()
    count, within = check_second_way(), check_error()
    say(f"Elo, error, superiority and sequential test: published values, by hand, {count} by a "
        f"second way; {within:.1%} of drawn matches within their error")
