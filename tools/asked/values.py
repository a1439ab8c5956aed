"""Values that mean the same: a fraction that is dropped, a minus before it, a plus, a minus before a zero. Each row of the table that takes such a value has
one in these streams, which are spelled as in `pages`. Of each the whole trace is wanted, and the listing (asked/leaves.txt).
"""

from asked.pages import stream_of

USER = "^*c9G^*c9W[000001000001000100]"   # a tile without a black dot
SETS = ("^&u{600}D^&f{0}S^*p100X^&f{1}S^&k{3}G^&l{8}D^&l{20}F^&l{0}L^&l{1}L^&l{3}A^&l{1}O^&l{1}S^&l{2}X~^&a{1}G^&a{2}G^*t{150}R^*r{40}S^*r{30}T^*r{1}A^*b{2}M^*b{3}Y^*rC"
        "^*c5a5b{0}P^*c{5}P^*v{4}T^*v{1}N^*v{1}O^*c{2}Q^*p300x300Y^*c{5}P^*c{8}G^&f{3}Y^&f{0}X^*p9X^&f{1}X^&f{2}X^&f{4}X^&f{5}X")
SIZES = "^&k{15}H^&l{10}C^&l{3}E^&a{5}L^&a{60}M^*c{30}A^*c{20}B^*c0P^*c{99}H^*c{88}V^*c0P"
ZEROS = ("^*p50X^&f{-0.9}S^*p80X^&f1S^&k3G^&k{-0.9}G^&l{-0.9}L^&l1O^&l{-0.9}O^&l1S^*p9X^&l{-0.9}S^*c5a5b0P^&a{-0.9}G^*r{-0.9}A^*rC^*b2M^*b{-0.9}M^*c7G^*c{-0.9}G^*c{-0.9}P"
         "^*v1T^*v{-0.9}T^*c9G^*v4T^*c{-0.9}Q^*p300x300Y^*c5P^*v1N^*v{-0.9}N^*v1O^*v{-0.9}O^&f3Y^&f{-0.9}Y^&f{-0.9}X^*p9X^&f1X")
NO_SIZES = "^&l{}E^&a5L^&a{}L^&k{}H^&l{}C^*c9a9B^*c{}A^*c9a{}B^*c9h9V^*c{}H^*c9h{}V"


def spelled(text, before="", behind=""):
    """A stream whose values in braces have this before and behind them."""
    return stream_of(text.replace("{", before).replace("}", behind))


STREAMS = {
    "a fraction is dropped of each whole number": spelled(USER + SETS, behind=".9"),
    "a minus before a fraction alone leaves 0": spelled(USER + ZEROS),
    "a plus makes no difference to a whole number": spelled(USER + SETS, before="+"),
    "a plus makes no difference to a size": spelled(SIZES, before="+"),
    "a minus before 0 makes no negative size": spelled(NO_SIZES.replace("{}", "-0")),
    "a minus before a fraction of five digits makes no negative size": spelled(NO_SIZES.replace("{}", "-.00009")),
    "the greatest size has no fraction": stream_of("^*c70000H^*c65535.9V^*c0P"),
    "a row past the source height does not count": stream_of("^*t300R^*r2T^*r0A^*b1W[80]^*b1W[80]^*b1W[80]^*b1W[80]"),
}
