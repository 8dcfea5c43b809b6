// The result of `status` of a `StoredServer`, as text for Prometheus.
const GAUGES = [["credentials", "credentials", 1], ["last_commit_microseconds", "last_commit_seconds", 1_000_000]];
const COUNTERS = ["commits", "lost_log_lines", "sign_ins", "registrations"];
const BY_STEP = ["sign_ins_refused", "registrations_refused"];

function metric(name, kind, samples) {
  return [`# TYPE garvoeng_${name} ${kind}`, ...samples.map(([labels, value]) => `garvoeng_${name}${labels} ${value}`)];
}

export function prometheus(status) {
  return [
    ...metric("info", "gauge", [[`{version="${status.version}"}`, 1]]),
    ...GAUGES.flatMap(([member, name, unit]) => metric(name, "gauge", [["", status[member] / unit]])),
    ...COUNTERS.flatMap(member => metric(`${member}_total`, "counter", [["", status[member]]])),
    ...BY_STEP.flatMap(member => metric(`${member}_total`, "counter", Object.entries(status[member]).map(([step, count]) => [`{step="${step}"}`, count]))),
  ].join("\n") + "\n";
}
