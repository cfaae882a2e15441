// Intervals of means: how sure a difference is. This is the one place of the page that works them out.
//
// They are those of crobots-challenge and crobots-tune, by Student's distribution.

/** @typedef {{value: number, low: number, high: number}} Interval */

const NORMAL = 1.959964;
const LEVEL = 0.95;
// of a difference in points
const DIGITS = 3;
// Wichura's AS 241: the quotients of polynomials by which a normal quantile is found, the highest power first. His third one is for
// chances below 1 in 10 ** 10, which nothing here asks for.
const MIDDLE = [
    [2509.0809287301226727, 33430.575583588128105, 67265.770927008700853, 45921.953931549871457, 13731.693765509461125,
        1971.5909503065514427, 133.14166789178437745, 3.387132872796366608],
    [5226.495278852854561, 28729.085735721942674, 39307.89580009271061, 21213.794301586595867, 5394.1960214247511077,
        687.1870074920579083, 42.313330701600911252, 1],
];
const NEAR = [
    [7.7454501427834140764e-4, 0.0227238449892691845833, 0.24178072517745061177, 1.27045825245236838258, 3.64784832476320460504,
        5.7694972214606914055, 4.6303378461565452959, 1.42343711074968357734],
    [1.05075007164441684324e-9, 5.475938084995344946e-4, 0.0151986665636164571966, 0.14810397642748007459, 0.68976733498510000455,
        1.6763848301838038494, 2.05319162663775882187, 1],
];

const sum = numbers => numbers.reduce((whole, it) => whole + it, 0);
const average = numbers => sum(numbers) / numbers.length;

/**
 * The quotient of two polynomials.
 * @param {number[][]} both
 */
function quotient(both, x) {
    const [above, below] = both.map(factors => factors.reduce((value, factor) => value * x + factor, 0));
    return above / below;
}

/** The variance of numbers, without bias. */
function varianceOf(numbers) {
    const middle = average(numbers);
    return sum(numbers.map(it => (it - middle) ** 2)) / (numbers.length - 1);
}

/** What a normal number is at most, by this chance, which is from 1 in 10 ** 10 on. */
export function normalQuantile(chance) {
    const from = chance - 0.5;
    if (Math.abs(from) <= 0.425) {
        return from * quotient(MIDDLE, 0.180625 - from * from);
    }
    const tail = Math.sqrt(-Math.log(Math.min(chance, 1 - chance)));
    return Math.sign(from) * quotient(NEAR, tail - 1.6);
}

/**
 * Student's quantile, beyond which there is half of what is outside of an interval of this level: by its series in 1 / freedom from
 * three degrees on; below that of fewer, whole ones, which have formulas.
 */
function quantile(freedom, level) {
    if (freedom < 2) {
        return Math.tan(Math.PI * level / 2);
    }
    if (freedom < 3) {
        return level * Math.sqrt(2 / (1 - level ** 2));
    }
    const [z, v] = [level === LEVEL ? NORMAL : normalQuantile((1 + level) / 2), 4 * freedom];
    return z + (z ** 3 + z) / v + (5 * z ** 5 + 16 * z ** 3 + 3 * z) / (6 * v ** 2)
        + (3 * z ** 7 + 19 * z ** 5 + 17 * z ** 3 - 15 * z) / (6 * v ** 3)
        + (79 * z ** 9 + 776 * z ** 7 + 1482 * z ** 5 - 1920 * z ** 3 - 945 * z) / (360 * v ** 4);
}

/** @returns {Interval} */
const around = (value, margin) => ({value, low: value - margin, high: value + margin});

/** Whether 0 is outside of an interval. */
export const isSure = ({low, high}) => low > 0 || high < 0;

/**
 * The mean of classes of equal weight, each with two numbers or more, with an interval of a level; the degrees of freedom of several
 * classes are those of Welch and Satterthwaite. Few numbers that differ say little of how many there are; so two more may be counted
 * that weren't seen: one that is so much more, and one that is as much less.
 */
export function meanOf(classes, unseen = 0, level = LEVEL) {
    const share = 1 / classes.length;
    const variances = classes.map(it => share ** 2 * varianceOf(it) / it.length);
    const counted = 1 / sum(classes.map(it => share ** 2 / it.length));
    const upsets = 2 * (unseen / counted) ** 2;
    const variance = sum(variances) + upsets;
    const value = average(classes.map(average));
    if (!variance) {
        return around(value, 0);
    }
    const freedom = variance ** 2 / (sum(variances.map((it, at) => it ** 2 / (classes[at].length - 1))) + upsets ** 2 / counted);
    return around(value, quantile(freedom, level) * Math.sqrt(variance));
}

/** A number of at least 0 with some digits, as the scripts write it: of a number in the middle of two the even one. */
export function fixed(value, digits) {
    const isMiddle = value * 2 ** (digits + 1) % 2 === 1;
    const below = Math.floor(value * 10 ** digits);
    return isMiddle ? ((below + below % 2) / 10 ** digits).toFixed(digits) : value.toFixed(digits);
}

/** A number with its sign and some digits; a zero has a plus. */
export function withSign(value, digits) {
    const text = fixed(Math.abs(value), digits);
    return `${value < 0 && Number(text) ? "-" : "+"}${text}`;
}

/** A difference in points as crobots-tune writes it: with its sign and three digits; a zero has none. */
export function difference(value) {
    const text = withSign(value, DIGITS);
    return Number(text) ? text : text.slice(1);
}

/**
 * An interval whose ends are moved outward to what is written, and aren't beyond the most that a difference can be.
 * @returns {Interval}
 */
export function outward({value, low, high}, most) {
    const unit = 10 ** DIGITS;
    return {value, low: Math.floor(Math.max(low, -most) * unit) / unit, high: Math.ceil(Math.min(high, most) * unit) / unit};
}
