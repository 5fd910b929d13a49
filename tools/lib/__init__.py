"""What checks and measures stand on.

  commands, findings                  how each is called, and how it tells what is wrong
  programs, processes, servers        where programs are built, what the system tells of them, and drives that are served
  crate_list, functions, clauses      what crates there are, their functions and their contracts
  pages, page_bounds, picture_names, trust, pictures
                                      what pages and pictures say of these
  crates, edits, copies, checkers, verdicts, trials, lanes, kit, libraries
                                      wrong bodies: what is tried, how, and what a check says of it
  refusing, judging, sweeps, server_sweeps, growth, holding, calls, by_hand
                                      allocations that are refused, counted and measured
  rows, chance, cutting, streams      what is asked: worked rows, and what is made at random
  cases, page_frames, conversations   what the client of examples/ spells, and is replied
  keeping, disks                      what journals tell, and the disks that they stand on
  loads, memory, falling, levels, plots
                                      servers under load
"""
