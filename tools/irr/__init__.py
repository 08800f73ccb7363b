"""The tool `irr`: what people and other systems want of a registry, asked over its public
formats."""

VERSION = "2.7.6"
