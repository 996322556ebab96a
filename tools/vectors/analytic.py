"""analytic_v6.rs's step and its reverse on floats as patterns, and document 01's numbers: what step.py and losses.py share,
with the weights and the numbers that their cases are made of.

Every number is computed with whole numbers and exact fractions alone, and never with a float. The formulas are the
Rust's own, line by line under its names; the box and the ranges are document 01's. This is a second reading of
both: nothing is taken from the definitions of the crates, but for what `max` gives of two zeros, which Rust
leaves open (the second of them), and for an unread day, which stands as +0.0. Each sum, difference, product and
quotient is an exact fraction, rounded once (tools/floats.py). exp, ln and pow are the kernels' definition over
whole numbers (tools/kernels/exact.py); what it refuses is a NaN inside a formula.
"""
from fractions import Fraction
from types import SimpleNamespace

from lines import below, between, either

import floats
import rules
from exact import exp_def, ln_def, pow_def
from floats import F32, F64, NAN


# ---- floats

class Number:
    """A float by its format and pattern, with Rust's operators. A whole number beside one is that value in its format."""

    def __init__(self, f, b):
        self.f, self.b = f, f.nan if f.is_nan(b) else b

    def like(self, x):
        x = x if isinstance(x, Number) else Number(self.f, self.f.exactly(x, 0))
        assert x.f is self.f
        return x

    def of(self, operation, x, y):
        return Number(self.f, operation(self.f, self.like(x).b, self.like(y).b))

    def __add__(self, x):
        return self.of(floats.add, self, x)

    def __sub__(self, x):
        return self.of(floats.sub, self, x)

    def __rsub__(self, x):
        return self.of(floats.sub, x, self)

    def __mul__(self, x):
        return self.of(floats.mul, self, x)

    def __rmul__(self, x):
        return self.of(floats.mul, x, self)

    def __truediv__(self, x):
        return self.of(floats.div, self, x)

    def __neg__(self):
        return Number(self.f, self.f.neg(self.b))

    def __lt__(self, x):
        return floats.less(self.f, self.b, self.like(x).b)

    def __gt__(self, x):
        return floats.less(self.f, self.like(x).b, self.b)

    def __eq__(self, x):
        b = self.like(x).b
        return not self.f.is_nan(b) and not self.f.is_nan(self.b) and not self < x and not self > x

    def __le__(self, x):
        return self < x or self == x

    def __ge__(self, x):
        return self > x or self == x

    def max(self, x):
        """Where one is a NaN the other, and of two zeros the second."""
        x = self.like(x)
        return self if self.f.is_nan(x.b) or self > x else x

    def kernel(self, definition, *more):
        v = definition(self.f, *(self.f.of_bits(self.like(x).b) for x in (self, *more)))
        return Number(self.f, self.f.nan if v == NAN else self.f.to_bits(v))

    def exp(self):
        return self.kernel(exp_def)

    def ln(self):
        return self.kernel(ln_def)

    def powf(self, y):
        return self.kernel(pow_def, y)

    def is_finite(self):
        return not self.f.is_nan(self.b) and not self.f.is_inf(self.b)


def single(text):
    """The single nearest to a decimal fraction."""
    return Number(F32, F32.decimal(text))


def double(text):
    return Number(F64, F64.decimal(text))


def wide(x):
    """`x as f64`: the same value in doubles."""
    assert x.f is F32
    v = F32.of_bits(x.b)
    if v == NAN:
        return Number(F64, F64.nan)
    if v[0] == "inf":
        return Number(F64, v[1] * F64.sign + F64.inf)
    return Number(F64, F64.rounded(v[0], F32.size(x.b)))


def up(x):
    """The next float above."""
    if x.b == x.f.sign:
        return Number(x.f, 1)
    return Number(x.f, x.b - 1 if x.b > x.f.sign else x.b + 1)


def down(x):
    return -up(-x)


def around(*ends):
    """Each end with the floats beside it."""
    return [x for end in ends for x in (down(end), end, up(end))]


# ---- the numbers of document 01

ZERO, ONE = single(0), single(1)
S_MIN, S_MAX, D_MIN, D_MAX = single("0.0001"), single(36500), single(1), single(10)
DAY_MAX = single(100000)
DEFAULT = [single(text) for text in rules.FSRS6_DEFAULT_PARAMETERS]
BOX = {i: (single(low), single(high)) for i, (low, high) in rules.BOX.items()}


# ---- analytic_v6.rs

def clamp(x, low, high):
    """A NaN passes."""
    return low if x < low else high if x > high else x


def clamp_grad(x, low, high):
    return double(1) if x >= low and x <= high else double(0)


def add(gw, idx, value):
    gw[idx] += value


def runtime_params(w):
    """RuntimeParams::new"""
    curve_decay = -w[20]
    curve_factor = (single("0.9").ln() / curve_decay).exp() - 1
    decay = wide(curve_decay)
    c = double("0.9").ln()
    exp_term = (c / decay).exp()
    easy_d = init_difficulty(w, 4)
    return SimpleNamespace(
        w=w,
        curve_decay=curve_decay,
        curve_factor=curve_factor,
        curve_dfactor_ddecay=exp_term * (-c / (decay * decay)),
        exp_w8=w[8].exp(),
        exp_w8_f64=wide(w[8]).exp(),
        failure_floor_divisor=(w[17] * w[18]).exp(),
        easy_d=easy_d,
        easy_d_f64=wide(easy_d),
        exp_3w5_f64=(3 * wide(w[5])).exp(),
    )


def curve_forward(p, t, s):
    t = t.max(0)
    decay = p.curve_decay
    factor = p.curve_factor
    base = t / s * factor + 1
    retrievability = base.powf(decay)
    return SimpleNamespace(t=t, s=s, decay=decay, factor=factor, base=base, retrievability=retrievability)


def curve_backward(p, cache, g_r, gw):
    if g_r == 0:
        return double(0)
    r = wide(cache.retrievability)
    base = wide(cache.base)
    decay = wide(cache.decay)
    t = wide(cache.t)
    s = wide(cache.s)
    factor = wide(cache.factor)

    db_ds = -t * factor / (s * s)
    g_s = g_r * r * decay / base * db_ds

    dfactor_ddecay = p.curve_dfactor_ddecay
    db_ddecay = t / s * dfactor_ddecay
    dr_ddecay = r * (base.ln() + decay / base * db_ddecay)
    add(gw, 20, -g_r * dr_ddecay)

    return g_s


def init_difficulty(w, rating):
    offset = single(max(rating - 1, 0))
    return w[4] - (w[5] * offset).exp() + 1


def step_forward(p, state, delta_t, rating, nth):
    w = p.w
    last_s = clamp(state.s, S_MIN, S_MAX)
    last_d = clamp(state.d, D_MIN, D_MAX)

    padding = rating == 0
    cache = SimpleNamespace(
        state_s=state.s, state_d=state.d, last_s=last_s, last_d=last_d, delta_t=delta_t, rating=rating,
        retrievability=ZERO, failure_raw=ZERO, failure_floor=ZERO, failure_used_floor=False, short_raw=ZERO,
        short_value=ZERO, short_raw_active=False, use_short=False, use_failure=False, init_selected=False,
        padding=padding, pre_clamp_s=last_s, mean_pre_clamp_d=last_d, init_rating=1,
    )
    if padding:
        return SimpleNamespace(s=last_s, d=last_d), cache

    init_selected = nth == 0 and state.s == 0
    init_rating = int(F32.size(clamp(rating, single(1), single(4)).b))
    cache.init_selected, cache.init_rating = init_selected, init_rating
    if init_selected:
        new_s = w[init_rating - 1]
        raw_d = init_difficulty(w, init_rating)
        cache.pre_clamp_s, cache.mean_pre_clamp_d = new_s, raw_d
        return SimpleNamespace(s=clamp(new_s, S_MIN, S_MAX), d=clamp(raw_d, D_MIN, D_MAX)), cache

    curve = curve_forward(p, delta_t, last_s)
    r = curve.retrievability
    cache.retrievability = r

    cache.use_short = delta_t == 0
    cache.use_failure = rating == 1
    if cache.use_short:
        short_raw = (w[17] * (rating - 3 + w[18])).exp() * last_s.powf(-w[19])
        cache.short_raw = short_raw
        cache.short_raw_active = not (rating >= 2 and short_raw < 1)
        cache.short_value = short_raw.max(1) if rating >= 2 else short_raw
        new_s = last_s * cache.short_value
    elif cache.use_failure:
        failure_raw = w[11] * last_d.powf(-w[12]) * ((last_s + 1).powf(w[13]) - 1) * ((1 - r) * w[14]).exp()
        failure_floor = last_s / p.failure_floor_divisor
        cache.failure_raw, cache.failure_floor = failure_raw, failure_floor
        cache.failure_used_floor = failure_floor < failure_raw
        new_s = failure_floor if cache.failure_used_floor else failure_raw
    else:
        hard_penalty = w[15] if rating == 2 else ONE
        easy_bonus = w[16] if rating == 4 else ONE
        success_inc = (
            p.exp_w8
            * (11 - last_d)
            * last_s.powf(-w[9])
            * (((1 - r) * w[10]).exp() - 1)
            * hard_penalty
            * easy_bonus
        )
        new_s = last_s * (success_inc + 1)

    delta_d = -w[6] * (rating - 3)
    next_d = last_d + (10 - last_d) * delta_d / 9
    mean_d = w[7] * (p.easy_d - next_d) + next_d
    new_d = clamp(mean_d, D_MIN, D_MAX)

    cache.pre_clamp_s, cache.mean_pre_clamp_d = new_s, mean_d
    return SimpleNamespace(s=clamp(new_s, S_MIN, S_MAX), d=new_d), cache


def backward_success(p, c, g, gw):
    if g == 0:
        return double(0), double(0), double(0)
    w = p.w
    s = wide(c.last_s)
    d = wide(c.last_d)
    r = wide(c.retrievability)
    rating = c.rating
    a = p.exp_w8_f64
    b = 11 - d
    c_s = s.powf(-wide(w[9]))
    e = ((1 - r) * wide(w[10])).exp() - 1
    exp_e = e + 1
    hp = wide(w[15]) if rating == 2 else double(1)
    eb = wide(w[16]) if rating == 4 else double(1)
    inc = a * b * c_s * e * hp * eb
    g_inc = g * s

    g_s = g * (inc + 1)
    g_s += g_inc * inc * (-wide(w[9]) / s)
    g_d = -(g_inc * a * c_s * e * hp * eb)
    g_r = g_inc * a * b * c_s * hp * eb * (-wide(w[10]) * exp_e)

    add(gw, 8, g_inc * inc)
    add(gw, 9, g_inc * inc * -s.ln())
    add(gw, 10, g_inc * a * b * c_s * hp * eb * ((1 - r) * exp_e))
    if rating == 2:
        add(gw, 15, g_inc * a * b * c_s * e * eb)
    if rating == 4:
        add(gw, 16, g_inc * a * b * c_s * e * hp)
    return g_s, g_d, g_r


def backward_failure(p, c, g, gw):
    if g == 0:
        return double(0), double(0), double(0)
    w = p.w
    s = wide(c.last_s)
    d = wide(c.last_d)
    r = wide(c.retrievability)
    if c.failure_used_floor:
        floor = wide(c.failure_floor)
        exp_floor = floor / s
        add(gw, 17, g * floor * -wide(w[18]))
        add(gw, 18, g * floor * -wide(w[17]))
        return g * exp_floor, double(0), double(0)

    raw = wide(c.failure_raw)
    base = s + 1
    p = base.powf(wide(w[13]))
    last_d_pow = d.powf(-wide(w[12]))
    er = ((1 - r) * wide(w[14])).exp()

    add(gw, 11, g * raw / wide(w[11]))
    add(gw, 12, g * raw * -d.ln())
    add(gw, 13, g * wide(w[11]) * last_d_pow * er * p * base.ln())
    add(gw, 14, g * raw * (1 - r))

    g_s = g * wide(w[11]) * last_d_pow * er * wide(w[13]) * p / base
    g_d = g * raw * (-wide(w[12]) / d)
    g_r = g * raw * -wide(w[14])
    return g_s, g_d, g_r


def backward_short(p, c, g, gw):
    if g == 0:
        return double(0)
    w = p.w
    s = wide(c.last_s)
    g_s = g * wide(c.short_value)
    if c.short_raw_active:
        g_raw = g * s
        raw = wide(c.short_raw)
        q = wide(c.rating - 3 + w[18])
        add(gw, 17, g_raw * raw * q)
        add(gw, 18, g_raw * raw * wide(w[17]))
        add(gw, 19, g_raw * raw * -s.ln())
        g_s += g_raw * raw * (-wide(w[19]) / s)
    return g_s


def backward_difficulty(p, c, g_out, gw):
    if g_out == 0:
        return double(0)
    w = p.w
    g_mean = g_out * clamp_grad(c.mean_pre_clamp_d, D_MIN, D_MAX)
    if g_mean == 0:
        return double(0)
    rating_minus_3 = wide(c.rating - 3)
    last_d = wide(c.last_d)
    delta_d = -wide(w[6]) * rating_minus_3
    next_d = last_d + (10 - last_d) * delta_d / 9
    easy_d = p.easy_d_f64

    add(gw, 7, g_mean * (easy_d - next_d))
    add(gw, 4, g_mean * wide(w[7]))
    add(gw, 5, g_mean * wide(w[7]) * -3 * p.exp_3w5_f64)

    g_next = g_mean * (1 - wide(w[7]))
    add(gw, 6, g_next * (10 - last_d) * -rating_minus_3 / 9)
    return g_next * (1 - delta_d / 9)


def backward_init(p, rating, g_s, g_d, gw):
    w = p.w
    add(gw, rating - 1, g_s)
    raw_d = init_difficulty(w, rating)
    g_raw_d = g_d * clamp_grad(raw_d, D_MIN, D_MAX)
    if not g_raw_d == 0:
        offset = double(rating - 1)
        add(gw, 4, g_raw_d)
        add(gw, 5, g_raw_d * -offset * (offset * wide(w[5])).exp())


def step_backward(p, c, g_out_s, g_out_d, g_r_extra, gw):
    g_pre_s = g_out_s * clamp_grad(c.pre_clamp_s, S_MIN, S_MAX)
    g_pre_d = g_out_d
    g_last_s = double(0)
    g_last_d = double(0)
    g_r = g_r_extra

    if c.padding:
        g_last_s += g_pre_s
        g_last_d += g_pre_d
    elif c.init_selected:
        backward_init(p, c.init_rating, g_pre_s, g_pre_d, gw)
    else:
        if c.use_short:
            g_last_s += backward_short(p, c, g_pre_s, gw)
        elif c.use_failure:
            gs, gd, gr = backward_failure(p, c, g_pre_s, gw)
            g_last_s += gs
            g_last_d += gd
            g_r += gr
        else:
            gs, gd, gr = backward_success(p, c, g_pre_s, gw)
            g_last_s += gs
            g_last_d += gd
            g_r += gr
        g_last_d += backward_difficulty(p, c, g_pre_d, gw)

    t = c.delta_t.max(0)
    curve = SimpleNamespace(
        t=t, s=c.last_s, decay=p.curve_decay, factor=p.curve_factor,
        base=t / c.last_s * p.curve_factor + 1, retrievability=c.retrievability,
    )
    g_last_s += curve_backward(p, curve, g_r, gw)

    g_state_s = g_last_s * clamp_grad(c.state_s, S_MIN, S_MAX)
    g_state_d = g_last_d * clamp_grad(c.state_d, D_MIN, D_MAX)
    return g_state_s, g_state_d


# ---- what a step reads, and its weights' box

def is_unread(s, rating, row):
    """The day goes unread in padding and in a first step."""
    return rating == 0 or (row == 0 and s == 0)


def weights_refusal(w):
    if len(w) != 21:
        return 1
    return 0 if all(BOX[i][0] <= x and x <= BOX[i][1] for i, x in enumerate(w)) else 2


params = {}


def runtime(w):
    """The run's parameters, worked out once for each set of weights."""
    key = tuple(x.b for x in w)
    if key not in params:
        params[key] = runtime_params(w)
    return params[key]


def stepped(w, s, d, day, rating, row):
    """The run's parameters, and the state and the record after an accepted step."""
    day = ZERO if is_unread(s, rating, row) else day
    return runtime(w), *step_forward(runtime(w), SimpleNamespace(s=s, d=d), day, rating, row)


# ---- what the cases are made of

NONE, INF = Number(F32, F32.nan), Number(F32, F32.inf)
NONE64, INF64 = Number(F64, F64.nan), Number(F64, F64.inf)
LEAST, MOST = Number(F32, 1), Number(F32, F32.max)
LEAST64, MOST64 = Number(F64, 1), Number(F64, F64.max)
BEYOND = single("100000.0078125")
MINUSES = [-double(0)] * 23
NUMBERED = [double(Fraction(i * i - 77, 8)) for i in range(23)]
APART = [double(0), -double(0), LEAST64, -MOST64, INF64, -INF64, NONE64]
MIXED = [APART[i % 7] for i in range(23)]
LOWEST, HIGHEST = ([BOX[i][end] for i in range(21)] for end in (0, 1))
NEGATIVE_ZEROS = [-ZERO if BOX[i][0] <= 0 and BOX[i][1] >= 0 else BOX[i][0] for i in range(21)]


def with_some(w, **changed):
    """w4="20" sets weight 4."""
    w = list(w)
    for name, text in changed.items():
        w[int(name[1:])] = text if isinstance(text, Number) else single(text)
    return w


def corner(is_high):
    return [BOX[i][is_high(i)] for i in range(21)]


def some_single(low, high):
    """From low to high, neither of them negative: any pattern between, or any number."""
    if below(2):
        return Number(F32, between(low.b, high.b))
    a, b = F32.size(low.b), F32.size(high.b)
    return Number(F32, F32.rounded(False, a + (b - a) * Fraction(below(1 << 40), 1 << 40)))


def some_weight(i):
    low, high = BOX[i]
    if below(8) == 0:
        return either(low, high)
    if low < 0:  # from -5 to 5
        return either(some_single(ZERO, high), -some_single(ZERO, high))
    return some_single(low, high)


def some_set():
    return [some_weight(i) for i in range(21)]


def near_default():
    """The default weights, each by up to a half more or less, within the box."""
    parts = [Fraction(512 + below(1025), 1024) for _ in DEFAULT]
    return [clamp(Number(F32, F32.rounded(False, F32.size(x.b) * q)), *BOX[i]) for i, (x, q) in enumerate(zip(DEFAULT, parts))]
