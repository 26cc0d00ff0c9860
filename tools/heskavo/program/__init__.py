"""Builds and installations of rbhost, rb_trials and the library for C."""
