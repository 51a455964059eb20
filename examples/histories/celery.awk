# What `celery events --dump` writes, as a history: each process is a worker, each task a job. A task is claimed when it starts,
# and done when it succeeds.
$4 != "task" || !match($0, /\([^)]*\)/) { next }
{ job = substr($0, RSTART + 1, RLENGTH - 2) }
$5 == "started:" {
  process[$1, job] = match($0, /pid=[0-9]+/) ? $1 ":" substr($0, RSTART + 4, RLENGTH - 4) : $1
  tell("claimed", process[$1, job], job)
}
$5 == "succeeded:" { tell("done", ($1, job) in process ? process[$1, job] : $1, job) }

function tell(word, worker, job) {
  if (!(worker in workers)) { workers[worker]; many_workers++ }
  if (!(job in jobs)) { jobs[job]; many_jobs++ }
  events[++many] = many " " word " " worker " " job
}

END {
  print "jobs", many_jobs + 0, "workers", many_workers + 0, "beta", many_workers + 0, "names"
  for (i = 1; i <= many; i++) print events[i]
}
