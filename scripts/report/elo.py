"""What the results of a match say of two players: the formulas of docs/REPORT.md.

A match is a list of counts, one for each outcome of a game or of a pair of games, from the worst
to the best; the outcomes are worth 0 to 1 in equal steps.
"""
import math
import statistics

NORMAL = statistics.NormalDist()
SURE = 0.95


def expected(elo):
    """The score that is expected at this difference."""
    return 1 / (1 + 10 ** (-elo / 400))


def difference(score):
    """The difference at which this score is expected; none at 0 and at 1."""
    return -400 * math.log10(1 / score - 1) if 0 < score < 1 else None


def worths(counts):
    """What each outcome is worth, with its count."""
    return [(n / (len(counts) - 1), count) for n, count in enumerate(counts)]


def mean_of(counts):
    return sum(worth * count for worth, count in worths(counts)) / sum(counts)


def error_of(counts):
    """The standard error of the mean."""
    mean, total = mean_of(counts), sum(counts)
    return math.sqrt(sum(count * (worth - mean) ** 2 for worth, count in worths(counts))) / total


def elo_of(counts):
    """The Elo difference, with its error at 95 %: half of what is between its bounds."""
    mean, error = mean_of(counts), NORMAL.inv_cdf((1 + SURE) / 2) * error_of(counts)
    low, high = difference(mean - error), difference(mean + error)
    known = error > 0 and low is not None and high is not None
    return difference(mean), (high - low) / 2 if known else None


def superiority(counts):
    """The likelihood that the first is the stronger one.

    Of games it is that of their wins and losses, of pairs that of their mean.
    """
    if len(counts) == 3:
        lost, _, won = counts
        return NORMAL.cdf((won - lost) / math.sqrt(won + lost)) if won + lost else 0.5
    error = error_of(counts)
    return NORMAL.cdf((mean_of(counts) - 0.5) / error) if error else None


# SEQUENTIAL TEST


def tilt(counts, score):
    """The multiplier of the likeliest distribution with this mean, by bisection.

    It is in [-1 / (1 - score), 1 / score], where the slope falls; at an end of it the distribution
    also has an outcome that never came.
    """
    low, high = -1 / (1 - score), 1 / score

    def slope(at):
        terms = ((worth - score, count) for worth, count in worths(counts) if count)
        return sum(count * off / (1 + at * off) for off, count in terms)

    for _ in range(200):
        middle = (low + high) / 2
        if not low < middle < high:
            break
        low, high = (middle, high) if slope(middle) > 0 else (low, middle)
    return (low + high) / 2


def penalty(counts, score):
    """How much less likely the results become if the mean has to be this score: its logarithm."""
    at = tilt(counts, score)
    return sum(count * math.log1p(at * (worth - score)) for worth, count in worths(counts) if count)


def likelihood_ratio(counts, elo0, elo1):
    """The logarithm of the generalized likelihood ratio of the second difference to the first."""
    return penalty(counts, expected(elo0)) - penalty(counts, expected(elo1))


def bounds(alpha, beta):
    """Wald's bounds."""
    return math.log(beta / (1 - alpha)), math.log((1 - beta) / alpha)


def sequential_test(counts, elo0, elo1, alpha, beta):
    """The test of elo0 against elo1, which ends at one of its bounds."""
    ratio, (low, high) = likelihood_ratio(counts, elo0, elo1), bounds(alpha, beta)
    says = "H1 accepted" if ratio >= high else "H0 accepted" if ratio <= low else "goes on"
    return {"ratio": ratio, "low": low, "high": high, "says": says}
