#!/usr/bin/env python3
"""Does what farm/grade does by Slurm: submits the parts as an array of jobs and the merge behind them, waits, and prints what it says.

Usage: farm/grade.slurm [--retries R] [--sbatch=WORD ..] PROGRAM PLAN [N]
       farm/grade.slurm [..] --resume FOLDER"""
import run

run.main("grade", is_slurm=True)
