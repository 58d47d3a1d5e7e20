#!/usr/bin/env python3
"""Does what farm/lot does by Slurm: submits the parts as an array of jobs and the merge behind them, waits, and prints what it says.

Usage: farm/lot.slurm [--retries R] [--sbatch=WORD ..] PROGRAM PLAN [N]
       farm/lot.slurm [..] --resume FOLDER"""
import run

run.main("lot", is_slurm=True)
