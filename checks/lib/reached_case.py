"""That `reached` finds what a text stands on: two small crates in which each name is reached in another way."""
import pathlib
import tempfile
import textwrap

import reached

FILES = {
    "lower/specs/Sizes.antt": """
        use Rattle.std.specs.Prelude.{ℕ}

        -- named by what another module imports
        abbrev pub size : ℕ → ℕ
        size n = half n

        -- named by a definition of its own file
        half : ℕ → ℕ
        half n = n

        -- named by nothing
        abbrev pub unused : ℕ
        unused = 7
        """,
    "lower/src/lib.rt": """
        pub struct Place {
            pub size: usize,
        }

        impl Model for Place {
            ghost view = { λ p. p.size };
        }

        pub struct Other {
            pub far: usize,
        }
        """,
    "upper/specs/Shown.antt": """
        use Rattle.lower.specs.Sizes.{size as size_of}
        use Rattle.lower.specs.declared.Place.{Place}

        -- named by the contract
        abbrev pub IsShown : Place → Type 0
        IsShown p = size_of p.size ≡ 0
        """,
    "upper/src/lib.rt": """
        ghost use Rattle.upper.specs.Shown.{IsShown};

        pub const MOST: usize = 8;
        """,
}
CONTRACT = "fn is_shown() ensures { IsShown result } { MOST }"
WANTED = {"IsShown", "size", "half", "Place", "MOST"}


def case():
    """The names that the contract reaches in these crates: what is missing, and what is too much."""
    kept = reached.CRATES
    with tempfile.TemporaryDirectory() as folder:
        reached.CRATES = pathlib.Path(folder)
        try:
            for path, text in FILES.items():
                (reached.CRATES / path).parent.mkdir(parents=True, exist_ok=True)
                (reached.CRATES / path).write_text(textwrap.dedent(text).lstrip())
            reach = reached.Reach({"lower", "upper"}, lambda crate: {
                "src/lib.rt": (reached.CRATES / crate / "src/lib.rt").read_text().split("\n")})
            found = {name for _, name, texts in reach.reached([(("upper", "src/lib.rt"), CONTRACT)]) if texts}
        finally:
            reached.CRATES = kept
            reached.definitions.cache_clear()
    return [f"edits: a verdict does not stand on {name}" for name in sorted(WANTED - found)] + [
        f"edits: a verdict stands on {name}, which nothing names" for name in sorted(found - WANTED)]
