if (!LOGS.length) put($("logs"), "tr").append("No log (*.log) is below this folder.");
order();
document.body.dataset.ready = "yes";
