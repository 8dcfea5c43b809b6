// Serves a site with WORKERS processes, four by default. Each is started again when it ends: node workers.cjs ./express.cjs
const cluster = require("node:cluster");
require("./party.cjs"); // The primary runs the program.

// Each accepts connections itself. If the primary passed one to a process that is then killed, it would be lost, and its browser would wait.
cluster.schedulingPolicy = cluster.SCHED_NONE;
if (cluster.isPrimary) {
  for (let count = 0; count < Number(process.env.WORKERS ?? 4); count++) cluster.fork();
  cluster.on("exit", () => setTimeout(() => cluster.fork(), 100));
} else {
  require(process.argv[2]);
}
