"""What the program has by now. A restriction that goes is one flag that is set here.

Whoever builds a command sets its flag, and the reference and the generator go with it.
"""

from dataclasses import dataclass, fields


@dataclass(frozen=True)
class Built:
    """Each flag says that the program has something; without it the program refuses it as said.

    derive_every_form: `derive` serves every operation, and splits of two dimensions; else `refused NotBuilt
        operation NAME` for the first operation that isn't `X = W` with general operands, and single dimensions only.
    run_every_form: `run` does statements of every form, with status 4; else `refused NotBuilt statement S` for the
        first statement whose form isn't `X = W`.
    verify: the command `verify`; else its words are bad.
    block_sizes: `run` works by blocks, with `refused TooManyParts ..` and `refused TooManySteps`.
    variants: `run` takes `--variants` and `--trace`, with `refused VariantCount ..` and `refused NoVariant ..`; else words
        that have them are bad.
    generator: the commands `make` and `selfrun`; else their words are bad.
    threads: runs by 2 to 16 workers; else their words are bad.
    pme: the command `pme`; else its words are bad.
    worksheet: the command `worksheet`; else its words are bad.
    check: the command `check`; else its words are bad.
    """

    derive_every_form: bool = False
    run_every_form: bool = False
    verify: bool = False
    block_sizes: bool = False
    variants: bool = False
    generator: bool = False
    threads: bool = False
    pme: bool = False
    worksheet: bool = False
    check: bool = False

    def has(self, command):
        """Whether the program has the command that these words spell; else the words are bad."""
        if command.parts.get("workers", 1) != 1 and not self.threads:
            return False
        if command.name == "run":
            return self.variants or not {"variants", "--trace"} & set(command.parts)
        commands = {"derive": True, "verify": self.verify, "make": self.generator, "selfrun": self.generator,
                    "pme": self.pme, "worksheet": self.worksheet, "check": self.check}
        return commands.get(command.name, False)

    def meets(self, needs):
        """Whether each flag named is set, and each `without FLAG` isn't."""
        return all(not getattr(self, need.split()[1]) if need.startswith("without ") else getattr(self, need)
                   for need in needs)


FLAGS = tuple(field.name for field in fields(Built))

# What the built program has today. What it doesn't have yet is switched on here when it lands.
BUILT = Built(derive_every_form=True, run_every_form=True, verify=True, block_sizes=True, variants=True, generator=True,
              threads=True, pme=True, worksheet=True, check=True)

# Everything that the reference can answer, whether the program has it or not.
WHOLE = Built(**{flag: True for flag in FLAGS})
