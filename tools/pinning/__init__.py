"""What has an answer that stands in the repository, as rows that the model is asked."""
