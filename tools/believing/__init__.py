"""What has to be believed of a contract: `tools/believe`."""
