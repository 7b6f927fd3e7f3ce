local skynet = require "skynet"
skynet.error("before"
skynet.error("after")
